//! The program `print_smallest`, run in random folders: what it writes is the second explainer's text,
//! and nothing else happens.

use std::io;
use std::path::Path;
use std::process::Output;

use crate::inputs::folders;
use crate::inputs::kinds::{Kinds, must};
use crate::inputs::sets;
use crate::inputs::smallest::{LONGEST, folder};
use crate::print;
use crate::program;
use crate::tally::{Outcome, Tally};
use crate::trials::{self, Trials};
use crate::views::{self, Explained, Form, View};

const PART: &str = "folder";

/// The numbers that it can be answered by, 0 for an automaton.
const NUMBERS: [u32; 13] = [0, 1, 2, 3, 4, 5, 6, 7, 8, 9, 11, 12, 20];

/// With so many folders every expected number and every way to make one occurs.
pub const ENOUGH: u64 = 2_500;

/// An expected number is answered at least once in so many folders.
const ONCE_IN: u64 = 200;

/// What `print_smallest` prints of these files.
pub fn printed(table: &[u8], formula: &[u8]) -> Vec<u8> {
    let text = views::text(View::Smallest(Form::Text), table, formula);
    text.map_or_else(|refused| print::refusal(refused.into()), String::into_bytes)
}

/// What should have occurred among enough folders and did not.
pub fn missing(tally: &Tally) -> Vec<String> {
    // What has a listing may have too many sets of rows.
    let of_explain = folders::WAYS.iter().map(|way| {
        let refused = way.numbers.iter().copied().filter(|&number| number > 0);
        must(PART, way.name, &refused.collect::<Vec<u32>>())
    });
    let by_sets = sets::QUESTIONS.iter().filter(|way| way.name != sets::LONG_LISTING);
    let by_sets = by_sets.map(|way| must(PART, way.name, way.numbers));
    let largest = [must(PART, sets::LONG_LISTING, &[12]), must(PART, LONGEST, &[0])];
    let expected: Vec<_> =
        of_explain.chain(by_sets).chain(largest).chain(sets::expected_signs()).collect();
    tally.missing(&NUMBERS, ONCE_IN, &expected)
}

/// Makes so many folders, one after the other in one place, and runs the program in each. The first in
/// which it differs is told and kept.
pub fn run(
    print: impl Fn(&Path) -> io::Result<Output>,
    place: &Path,
    seed: u64,
    count: u64,
) -> Result<Tally, String> {
    let mut tally = Tally::new("print_smallest");
    let folder = |index| folder(seed, index);
    Trials { place, seed, count }.each(folder, |_, name, files| {
        let [table, formula] = [files.table.contents(), files.formula.contents()];
        let expected = printed(table, formula);
        let output = print(place).map_err(|error| error.to_string())?;
        trials::answers(&expected, &output)?;
        let mut kinds = Kinds::default();
        kinds.note(PART, name);
        if let Ok(explained) = Explained::of(table, formula) {
            sets::note(&mut kinds, &explained.listing);
        }
        tally.count(&kinds.0, Outcome::of(program::number(&expected)));
        Ok(())
    })?;
    Ok(tally)
}
