//! The program `explain`, run in random folders: what it writes is the second explainer's text, and
//! nothing else happens.

use std::io;
use std::path::Path;
use std::process::{Command, Output, Stdio};

use crate::inputs::folders::{self, NUMBERS, WAYS};
use crate::inputs::kinds::must;
use crate::print;
use crate::tally::{Kind, Outcome, Tally};
use crate::trials::{self, Trials};

const PART: &str = "folder";

/// With so many folders every expected number and every way to make one occurs.
pub const ENOUGH: u64 = 2_500;

/// An expected number is answered at least once in so many folders.
const ONCE_IN: u64 = 200;

/// What should have occurred among enough folders and did not.
pub fn missing(tally: &Tally) -> Vec<String> {
    let expected: Vec<_> = WAYS.iter().map(|way| must(PART, way.name, way.numbers)).collect();
    tally.missing(&NUMBERS, ONCE_IN, &expected)
}

/// Makes so many folders, one after the other in one place, and runs the program in each. The first
/// in which it differs is told and kept. A listing is counted as number 0.
pub fn run(
    explain: impl Fn(&Path) -> io::Result<Output>,
    place: &Path,
    seed: u64,
    count: u64,
) -> Result<Tally, String> {
    let mut tally = Tally::new("program");
    let folder = |index| {
        let (way, files) = folders::folder(seed, index);
        (way.name, files)
    };
    Trials { place, seed, count }.each(folder, |_, name, files| {
        let expected = print::explain_files(files.table.contents(), files.formula.contents());
        let output = explain(place).map_err(|error| error.to_string())?;
        trials::answers(&expected, &output)?;
        tally.count(&[Kind { part: PART, name }], Outcome::of(number(&expected)));
        Ok(())
    })?;
    Ok(tally)
}

/// The output of a program with this folder as its current one.
pub fn output_in(program: &Path, folder: &Path) -> io::Result<Output> {
    Command::new(program).current_dir(folder).stdin(Stdio::null()).output()
}

/// A refusal is one line and begins with its number; a listing, or a smallest automaton, has more lines.
pub fn number(text: &[u8]) -> u32 {
    let text = str::from_utf8(text).expect("ASCII");
    let mut lines = text.lines();
    match (lines.next(), lines.next()) {
        (Some(line), None) => line[..6].trim_start().parse().expect("a number"),
        _ => 0,
    }
}
