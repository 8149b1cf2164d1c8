//! Random folders for the program `print_smallest`: those of `explain`, and questions by the sets of
//! rows that their words lead to.

use super::folders::{self, Files, files_of};
use super::rng::Rng;
use super::sets;

pub const LONGEST: &str = "256 states with an edge by each of 41 letters";

/// The same folder for the same seed and index, with its kind. Every other one is one of `explain`, and
/// the ways to make a question by its sets take turns at the others, one in 50 aside.
pub fn folder(seed: u64, index: u64) -> (&'static str, Files) {
    if !index.is_multiple_of(2) {
        let (way, files) = folders::folder(seed, index);
        return (way.name, files);
    }
    let rng = &mut Rng::of_input(seed, "smallest", index);
    let (name, question) = match index % 50 {
        20 => (LONGEST, sets::of_most_states(rng)),
        _ => {
            let turn = index / 2 % sets::QUESTIONS.len() as u64;
            let way = &sets::QUESTIONS[turn as usize];
            (way.name, (way.make)(rng, &()))
        }
    };
    (name, files_of(rng, &question))
}
