//! The program `print_verdicts`, run in random folders with random lists of states: what it writes is
//! the second explainer's text, and nothing else happens.

use std::io::{self, Write};
use std::path::Path;
use std::process::{Command, Output, Stdio};
use std::thread;
use std::time::Duration;

use crate::inputs::kinds::{expected, must};
use crate::inputs::lists::{self, INPUT, LIST, LISTS, MOST_STATES, READ};
use crate::reply::Reply;
use crate::starts;
use crate::tally::{Outcome, Tally};
use crate::trials::{self, Trials, shown};

const PART: &str = "folder";
const VERDICTS: &str = "verdicts";

/// The numbers that it can be answered by, 0 for verdicts.
const NUMBERS: [u32; 11] = [0, 1, 2, 3, 4, 5, 6, 7, 8, 9, 16];

/// With so many folders every expected number and every way to make a list occurs.
pub const ENOUGH: u64 = 2_500;

/// An expected number is answered at least once in so many folders.
const ONCE_IN: u64 = 200;

/// Long enough for a program to read the first piece of its list alone.
const BETWEEN: Duration = Duration::from_millis(2);

/// What should have occurred among enough folders and did not.
pub fn missing(tally: &Tally) -> Vec<String> {
    let verdicts =
        ["of no state", "all 1", "all 0", "some 1"].map(|name| must(VERDICTS, name, &[0]));
    let folders = [must(PART, MOST_STATES, &[0, 16])];
    let lists = expected(LIST, &LISTS).into_iter().chain(expected(INPUT, &READ));
    let expected: Vec<_> = lists.chain(verdicts).chain(folders).collect();
    tally.missing(&NUMBERS, ONCE_IN, &expected)
}

/// Makes so many folders, one after the other in one place, and runs the program in each, with a list.
/// The first in which it differs is told and kept.
pub fn run(
    print: impl Fn(&Path, &[u8]) -> io::Result<Output>,
    place: &Path,
    seed: u64,
    count: u64,
) -> Result<Tally, String> {
    let mut tally = Tally::new("print_verdicts");
    let folder = |index| lists::folder(seed, index);
    Trials { place, seed, count }.each(folder, |index, name, files| {
        let [table, formula] = [files.table.contents(), files.formula.contents()];
        let (mut kinds, list) = lists::input(seed, index, table);
        kinds.note(PART, name);
        let number = match starts::verdicts(table, formula, &list) {
            Ok(verdicts) => {
                kinds.note(VERDICTS, sign(&verdicts));
                0
            }
            Err(refusal) => Reply::from(refusal).number,
        };
        let output = print(place, &list).map_err(|error| error.to_string())?;
        let right = trials::answers(&starts::printed(table, formula, &list), &output);
        right.map_err(|told| format!("list: {}\n{told}", shown(&list)))?;
        tally.count(&kinds.0, Outcome::of(number));
        Ok(())
    })?;
    Ok(tally)
}

fn sign(verdicts: &[(u8, bool)]) -> &'static str {
    let times = verdicts.iter().filter(|(_, verdict)| *verdict).count();
    match verdicts.len() {
        0 => "of no state",
        all if times == all => "all 1",
        _ if times == 0 => "all 0",
        _ => "some 1",
    }
}

/// The output of a program with this folder as its current one, and this list to read, which comes in
/// two pieces.
pub fn output_in(program: &Path, folder: &Path, list: &[u8]) -> io::Result<Output> {
    let mut command = Command::new(program);
    command.current_dir(folder).stdin(Stdio::piped());
    let mut child = command.stdout(Stdio::piped()).stderr(Stdio::piped()).spawn()?;
    let mut input = child.stdin.take().expect("a pipe");
    let (first, second) = list.split_at(list.len() / 2);
    let written = input.write_all(first).and_then(|()| {
        thread::sleep(BETWEEN);
        input.write_all(second)
    });
    drop(input);
    let output = child.wait_with_output()?;
    match written {
        // It ended without reading all of it.
        Err(error) if error.kind() != io::ErrorKind::BrokenPipe => Err(error),
        _ => Ok(output),
    }
}
