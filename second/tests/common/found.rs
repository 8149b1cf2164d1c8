//! Which random input first shows that an explainer is wrong.

use second::entries::{Entries, SECOND};
use second::fuzz;

/// As in .ci/second.
pub const SEED: u64 = 1;
const INPUTS: u64 = 200_000;

/// The first input that shows the fault.
fn first_found(wrong: &Entries) -> Option<u64> {
    let outcome = fuzz::run(&SECOND, wrong, SEED, INPUTS, |_| ());
    outcome.err().map(|found| found.index)
}

pub fn all_are_found(mutants: &[(&str, Entries)]) {
    let found = mutants.iter().map(|(name, wrong)| (*name, first_found(wrong)));
    let found: Vec<(&str, Option<u64>)> = found.collect();
    for (name, index) in &found {
        println!("{name}: {}", index.map_or("not found".into(), |index| format!("input {index}")));
    }
    let missed: Vec<&str> =
        found.iter().filter(|(_, index)| index.is_none()).map(|(name, _)| *name).collect();
    assert_eq!(missed, [""; 0]);
}
