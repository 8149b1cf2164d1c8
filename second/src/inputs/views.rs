//! Random folders for the views of a listing: names that mean something where a view is read, steps
//! beside each other, words that come to an end and words that do not, and folders that are refused.

use std::collections::BTreeSet;

use super::edits;
use super::folders::{self, File, Files, NUMBERS, at_the_limits, files_of};
use super::kinds::{Kinds, Way, pick, way};
use super::questions::{Question, question, with_long_words};
use super::rng::Rng;
use super::tables::{Size, with_counts};
use super::{formulas, sets, tables, written};
use crate::formula::Node;
use crate::table::{Step, Table};

/// Folders that are mostly accepted.
pub const WAYS: [Way<(), Files>; 7] = [
    way("any question", 6, &[0], |rng, ()| {
        let question = question(rng, 100);
        files(rng, question)
    }),
    way("medium question", 2, &[0], |rng, ()| {
        let table = tables::table(rng, &mut Kinds::default(), Size::Medium);
        let nodes = rng.between(3, 12);
        let formula = formulas::until(rng, nodes, &table);
        files(rng, Question { table, formula })
    }),
    way("steps beside each other", 8, &[0], |rng, ()| {
        let (states, labels) = (rng.between(1, 3), rng.between(2, 6));
        let transitions = rng.between(4, 18);
        let table = with_counts(rng, &mut Kinds::default(), states, labels, transitions);
        let question = match rng.one_in(2) {
            true => without_until(rng, table),
            false => Question { formula: formulas::until(rng, 4, &table), table },
        };
        files(rng, question)
    }),
    way("no until", 6, &[0], |rng, ()| {
        let table = tables::table(rng, &mut Kinds::default(), Size::Small);
        let question = without_until(rng, table);
        files(rng, question)
    }),
    way("no way back", 5, &[0], |rng, ()| {
        let table = without_way_back(rng);
        let nodes = rng.between(3, 7);
        let formula = formulas::until(rng, nodes, &table);
        files(rng, Question { table, formula })
    }),
    way("an until for long words", 5, &[0], |rng, ()| {
        let question = with_long_words(rng, &mut Kinds::default(), usize::MAX);
        files(rng, question)
    }),
    way("rows and edges at the limits", 2, &[0], |rng, ()| at_the_limits(rng, 255, 1_023)),
];

/// A folder with a listing, whose formula has over 512 bytes when it is written back.
pub const LONGER: Way<(), Files> = way("longer when written back", 1, &[0], |rng, ()| {
    let (table, mut line) = written::longer_when_written(rng);
    edits::end_or_not(rng, &mut line);
    Files { table: File::Holds(table.text()), formula: File::Holds(line) }
});

/// A folder by the sets of rows that its words lead to.
pub const BY_SETS: Way<(), Files> = way("by its sets of rows", 1, &[0], |rng, ()| {
    let way = &sets::QUESTIONS[rng.below(sets::QUESTIONS.len())];
    let question = (way.make)(rng, &());
    files(rng, question)
});

/// The same folder for the same seed and index, with its kind. One in five is made for a refusal,
/// at which the numbers take turns, one in 25 is longer when its formula is written back, and one in 25
/// is made by its sets of rows.
pub fn folder(seed: u64, index: u64) -> (&'static str, Files) {
    let rng = &mut Rng::of_input(seed, "views", index);
    let way = match (index % 25, index % 5) {
        (21, _) => Some(&LONGER),
        (12, _) => Some(&BY_SETS),
        (_, 0..4) => Some(pick(rng, &WAYS)),
        _ => None,
    };
    if let Some(way) = way {
        return (way.name, (way.make)(rng, &()));
    }
    let [_, refusals @ ..] = NUMBERS;
    let number = refusals[(index / 5) as usize % refusals.len()];
    let ways = folders::WAYS.iter().filter(|way| way.numbers == [number]);
    let way = rng.pick(&ways.collect::<Vec<&folders::Way>>());
    (way.name, (way.files)(rng))
}

/// How many words are asked for.
pub fn word_count(seed: u64, index: u64) -> usize {
    let rng = &mut Rng::of_input(seed, "word count", index);
    let most = rng.pick(&[4, 12]);
    rng.between(0, most)
}

/// A question in texts, its labels often named so that a view may mistake them.
fn files(rng: &mut Rng, question: Question) -> Files {
    let Question { table, formula } = question;
    let table = match rng.one_in(3) {
        true => table,
        false => with_telling_names(rng, table),
    };
    files_of(rng, &Question { table, formula })
}

/// Words with a meaning in some view, and such as awk may take for numbers.
const TELLING: [&[u8]; 8] = [b"i", b"tau", b"i!", b"tau?", b"final", b"idle", b"inf", b"nan"];

fn with_telling_names(rng: &mut Rng, table: Table) -> Table {
    let labels = table.labels();
    let others = table.names.into_iter().filter(|name| !TELLING.contains(&name.as_slice()));
    let mut telling = TELLING;
    rng.shuffle(&mut telling);
    let names = telling.into_iter().map(<[u8]>::to_vec).chain(others).take(labels).collect();
    Table { names, ..table }
}

fn without_until(rng: &mut Rng, table: Table) -> Question {
    loop {
        let nodes = rng.between(1, 7);
        let class = formulas::class(rng, nodes);
        let formula = formulas::formula(rng, Some(class), nodes, &table);
        let is_until = |node: &Node| matches!(node, Node::Until(..) | Node::UntilThen(..));
        if !formula.nodes.iter().any(is_until) {
            return Question { table, formula };
        }
    }
}

/// Each step leads to a higher state, so that only idle steps can be taken twice.
fn without_way_back(rng: &mut Rng) -> Table {
    let (states, labels) = (rng.between(2, 8), rng.between(1, 4));
    let drawn = with_counts(rng, &mut Kinds::default(), states, labels, 3 * states);
    let rising =
        |step: &Step| Step { from: step.from.min(step.to), to: step.from.max(step.to), ..*step };
    let steps: BTreeSet<Step> =
        drawn.transitions.iter().map(rising).filter(|step| step.from < step.to).collect();
    Table { start: 0, transitions: steps.into_iter().collect(), ..drawn }
}
