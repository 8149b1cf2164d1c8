//! The program `print_combined`, and `explain --combine`, run on random pairs of tables: what they write
//! is the second explainer's text, a refusal is told of the right file, and nothing else happens.

use std::io;
use std::path::Path;
use std::process::{Command, Output, Stdio};

use crate::columns;
use crate::combining;
use crate::inputs::kinds::{expected, must};
use crate::inputs::pairs;
use crate::inputs::side_by_side::{FILES, FILES_OF, Input, input};
use crate::reply::{Refusal, Reply};
use crate::table::Table;
use crate::tally::{Expected, Kind, Outcome, Tally};
use crate::trials::{self, Trials, shown};

const NAMES: [&str; 2] = ["first.txt", "second.txt"];

const REFUSED: &str = "refused";
/// By the file that a refusal is about.
const ABOUT: [&str; 3] = ["both together", "the first", "the second"];

/// The numbers that it can be answered by, 0 for a table.
const NUMBERS: [u32; 8] = [0, 1, 2, 3, 4, 17, 18, 19];

/// With so many pairs every expected number and every way to make one occurs.
pub const ENOUGH: u64 = 2_500;

/// An expected number is answered at least once in so many pairs.
const ONCE_IN: u64 = 200;

/// A refusal, and the file that it is about: 1 or 2, or 0 for both together.
#[derive(Clone, Copy, Debug, PartialEq, Eq)]
pub struct Refused {
    pub refusal: Refusal,
    pub file: usize,
}

/// The combined table of two files.
pub fn combined(first: &[u8], second: &[u8]) -> Result<Table, Refused> {
    let of = |file| move |refusal| Refused { refusal, file };
    let first = Table::read(first).map_err(of(1))?;
    let second = Table::read(second).map_err(of(2))?;
    combining::combined(&first, &second).map_err(of(0))
}

/// What `print_combined` prints of these files.
pub fn printed(first: &[u8], second: &[u8]) -> Vec<u8> {
    combined(first, second).map_or_else(|refused| line(&refused), |table| table.text())
}

/// Number, figure and file.
pub fn line(refused: &Refused) -> Vec<u8> {
    let Reply { number, figure } = refused.refusal.into();
    let mut text = Vec::new();
    columns::write_line(&[number.into(), figure, refused.file as u64], &mut text);
    text
}

/// What should have occurred among enough pairs and did not.
pub fn missing(tally: &Tally) -> Vec<String> {
    let refused = [(ABOUT[1], 1..=4), (ABOUT[2], 1..=4), (ABOUT[0], 17..=19)];
    let refused =
        refused.map(|(name, numbers)| must(REFUSED, name, &numbers.collect::<Vec<u32>>()));
    // What the tables are answered is expected of more of them, in `fuzz`.
    let tables = pairs::expected().into_iter();
    let tables = tables.map(|expected| Expected { outcomes: Vec::new(), ..expected });
    let expected: Vec<_> = tables.chain(expected(FILES, &FILES_OF)).chain(refused).collect();
    tally.missing(&NUMBERS, ONCE_IN, &expected)
}

/// Who is asked for a combined table.
#[derive(Clone, Copy, Debug, PartialEq, Eq)]
pub enum Asked {
    /// Prints a refusal's line.
    Program,
    /// Tells a refusal in words.
    Script,
}

impl Asked {
    fn is_right(self, expected: &Result<Table, Refused>, output: &Output) -> Result<(), String> {
        match (expected, self) {
            (Ok(table), _) => trials::answers(&table.text(), output),
            (Err(refused), Asked::Program) => trials::answers(&line(refused), output),
            (Err(refused), Asked::Script) => {
                trials::writes(b"", 1, output)?;
                tells(refused, &output.stderr)
            }
        }
    }

    /// The output of the program in this folder, or of the script for its files.
    pub fn output_in(self, file: &Path, folder: &Path) -> io::Result<Output> {
        let mut command = Command::new(file);
        if self == Asked::Script {
            command.arg("--combine").args(NAMES);
        }
        command.current_dir(folder).stdin(Stdio::null()).output()
    }
}

/// The words begin with the number, and have the file and its line, or the count.
fn tells(refused: &Refused, words: &[u8]) -> Result<(), String> {
    let Reply { number, figure } = refused.refusal.into();
    let (about, figure) = match refused.file {
        0 => ("the combined table", format!(" has {figure} ")),
        file => (NAMES[file - 1], format!("line {figure}")),
    };
    let first = str::from_utf8(words).unwrap_or_default().lines().next().unwrap_or_default();
    let rest = first.strip_prefix(&format!("explain: refused ({number}): {about}"));
    let behind = rest.and_then(|rest| rest.split_once(&figure)).map(|(_, behind)| behind);
    match behind.is_some_and(|behind| !behind.starts_with(|next: char| next.is_ascii_digit())) {
        true => Ok(()),
        false => Err(format!("standard error: {}, of {about},{figure}", shown(words))),
    }
}

/// Makes so many pairs, one after the other in one place, and asks for the combined table of each. The
/// first that gets another answer is told and kept.
pub fn run(
    asked: Asked,
    output: impl Fn(&Path) -> io::Result<Output>,
    place: &Path,
    seed: u64,
    count: u64,
) -> Result<Tally, String> {
    let mut tally = Tally::new("pairs");
    let named = |index| {
        let input = input(seed, index);
        (input.kinds.0.last().map_or("", |kind| kind.name), input)
    };
    Trials { place, seed, count }.each(named, |_, _, Input { kinds, pair }| {
        let expected = combined(pair.first.contents(), pair.second.contents());
        let output = output(place).map_err(|error| error.to_string())?;
        asked.is_right(&expected, &output)?;
        let mut kinds = kinds.0.clone();
        let number = match expected {
            Ok(_) => 0,
            Err(Refused { refusal, file }) => {
                kinds.push(Kind { part: REFUSED, name: ABOUT[file] });
                Reply::from(refusal).number
            }
        };
        tally.count(&kinds, Outcome::of(number));
        Ok(())
    })?;
    Ok(tally)
}
