//! Random calls of every entry, each made of two explainers and compared.

use std::fmt;

use crate::compare::{self, Case, Lent, disagreement};
use crate::entries::{EDGE_PLACE, Entries, ROW_PLACE};
use crate::formula::MAX_BYTES;
use crate::inputs::kinds::{self, Kinds, Way, way};
use crate::inputs::lending::{self, LENGTHS, lend};
use crate::inputs::rng::Rng;
use crate::inputs::tables::{expected_names, with_any_names};
use crate::inputs::{
    formula_texts, formulas, pairs, questions, sets, starts, table_texts, tables, words, written,
};
use crate::interface::interface;
use crate::listing::Listing;
use crate::prepared::{FORMULA_LENGTH, TABLE_LENGTH};
use crate::smallest::{SMALLEST_LENGTH, WORK_LENGTH};
use crate::table::{MAX_STATES, MAX_TEXT};
use crate::tally::{Expected, Kind, Tally};

/// The first input to which the answers differ, and how.
#[derive(Debug, PartialEq, Eq)]
pub struct Disagreement {
    pub seed: u64,
    pub index: u64,
    pub told: String,
}

impl fmt::Display for Disagreement {
    fn fmt(&self, to: &mut fmt::Formatter) -> fmt::Result {
        write!(to, "input {} of seed {}\n{}", self.index, self.seed, self.told)
    }
}

/// Compares so many calls of each entry that the other explainer has. Stops at a disagreement.
pub fn run(
    second: &Entries,
    other: &Entries,
    seed: u64,
    count: u64,
    mut agreed: impl FnMut(Tally),
) -> Result<(), Disagreement> {
    let calls = Calls { second, other, seed, count };
    macro_rules! compared {
        ($($type:ident $entry:ident $function:ident($($slices:tt)*) [$($values:tt)*];)*) => {
            $(calls.compare::<compare::$type>($entry)?.map(&mut agreed);)*
        };
    }
    interface!(compared);
    Ok(())
}

struct Calls<'a> {
    second: &'a Entries,
    other: &'a Entries,
    seed: u64,
    count: u64,
}

impl Calls<'_> {
    fn compare<C: Case>(
        &self,
        make: fn(&mut Rng) -> Input<C>,
    ) -> Result<Option<Tally>, Disagreement> {
        let mut tally = Tally::new(C::ENTRY);
        for index in 0..self.count {
            let Input { case, kinds } = make(&mut Rng::of_input(self.seed, C::ENTRY, index));
            let Some(other) = case.answer(self.other) else {
                return Ok(None);
            };
            let second = case.answer(self.second).expect("the second explainer has all");
            tally.count(&kinds, C::outcome(second.reply));
            if let Some(told) = disagreement(&case, &second, &other) {
                return Err(Disagreement { seed: self.seed, index, told });
            }
        }
        Ok(Some(tally))
    }
}

/// With so many inputs of an entry every expected answer and kind occurs.
pub const ENOUGH: u64 = 40_000;

/// An expected number is answered at least once in so many inputs.
const ONCE_IN: u64 = 200;

/// What should have occurred among enough inputs and did not.
pub fn missing(tally: &Tally) -> Vec<String> {
    let (numbers, expected) = expected(tally.of);
    tally.missing(numbers, ONCE_IN, &expected)
}

fn expected(entry: &str) -> (&'static [u32], Vec<Expected>) {
    let lent = || {
        let [table, formula] =
            [lending::expected(&lending::TABLE), lending::expected(&lending::FORMULA)];
        table.into_iter().chain(formula)
    };
    let questions = || questions::expected().into_iter().chain(lent());
    match entry {
        "read_table" => {
            let texts = kinds::expected(TEXT, &table_texts::TEXTS);
            let lengths = kinds::expected(WRITTEN, &LENGTHS);
            let all = texts.into_iter().chain(lengths).chain(expected_names()).collect();
            (&[0, 1, 2, 3, 4, 14], all)
        }
        "table_text" => {
            let sizes = tables::expected_sizes();
            let lengths = kinds::expected(WRITTEN, &LENGTHS);
            let lent = lending::expected(&lending::TABLE);
            let all = sizes.into_iter().chain(lengths).chain(lent).chain(expected_names());
            (&[0, 10, 14], all.collect())
        }
        "combine" => {
            let lengths = kinds::expected(WRITTEN, &LENGTHS);
            let [first, second] =
                [lending::expected(&lending::FIRST), lending::expected(&lending::SECOND)];
            let all = pairs::expected().into_iter().chain(lengths).chain(first).chain(second);
            (&[0, 10, 14, 17, 18, 19], all.collect())
        }
        "read_formula" => {
            let texts = kinds::expected(TEXT, &formula_texts::TEXTS);
            let lookups = kinds::expected(TEXT, &formula_texts::LOOKUPS);
            let lengths = kinds::expected(WRITTEN, &LENGTHS);
            let lent = lending::expected(&lending::TABLE);
            let all = texts.into_iter().chain(lookups).chain(lengths).chain(lent);
            (&[0, 5, 6, 7, 8, 9, 10, 14], all.chain(expected_names()).collect())
        }
        "write_formula" => {
            let written = kinds::expected(WRITTEN_BACK, &written::QUESTIONS);
            let lengths = kinds::expected(WRITTEN, &LENGTHS);
            (&[0, 10, 14, 15], questions().chain(written).chain(lengths).collect())
        }
        "verdict" => (&[0, 10, 14], questions().collect()),
        "verdicts" => {
            let lengths = kinds::expected(WRITTEN, &LENGTHS);
            (&[0, 10, 14, 16], questions().chain(starts::expected()).chain(lengths).collect())
        }
        "build" => {
            let rows = kinds::expected(ROWS, &PLACES);
            let edges = kinds::expected(EDGES, &PLACES);
            (&[0, 10, 11, 12, 14], questions().chain(rows).chain(edges).collect())
        }
        "smallest" => {
            let rows = kinds::expected(ROWS, &PLACES);
            let edges = kinds::expected(EDGES, &PLACES);
            let [smallest, work] = [SMALLEST, WORK].map(|part| kinds::expected(part, &LENGTHS));
            let all = sets::expected().into_iter().chain(lent()).chain(rows).chain(edges);
            (&[0, 10, 11, 12, 14, 20], all.chain(smallest).chain(work).collect())
        }
        "accepts" => {
            let words =
                words::expected().into_iter().chain([questions::expected_with_long_words()]);
            (&[0, 10, 13, 14], questions().chain(words).collect())
        }
        "explain" => {
            let table = kinds::expected(TABLE_TEXT, &table_texts::TEXTS);
            let formula = kinds::expected(FORMULA_TEXT, &formula_texts::TEXTS);
            let buffers = kinds::expected(TABLE_BUFFER, &LENGTHS)
                .into_iter()
                .chain(kinds::expected(FORMULA_BUFFER, &LENGTHS));
            let places =
                kinds::expected(ROWS, &PLACES).into_iter().chain(kinds::expected(EDGES, &PLACES));
            let all = questions::expected().into_iter().chain(table).chain(formula);
            (
                &[0, 1, 2, 3, 4, 5, 6, 7, 8, 9, 11, 12, 14],
                all.chain(buffers).chain(places).collect(),
            )
        }
        _ => unreachable!("no other entry is compared"),
    }
}

const TEXT: &str = "text";
const TABLE_TEXT: &str = "table's text";
const FORMULA_TEXT: &str = "formula's text";
const WRITTEN: &str = "written buffer";
const WRITTEN_BACK: &str = "written back";
const TABLE_BUFFER: &str = "table's buffer";
const FORMULA_BUFFER: &str = "formula's buffer";
const SMALLEST: &str = "smallest automaton's buffer";
const WORK: &str = "work buffer";
const ROWS: &str = "places for rows";
const EDGES: &str = "places for edges";

/// A call and what it is an example of.
pub struct Input<C> {
    pub case: C,
    pub kinds: Vec<Kind>,
}

fn lent(rng: &mut Rng, length: usize) -> Lent {
    Lent { length, fill: rng.draw() }
}

pub fn read_table(rng: &mut Rng) -> Input<compare::ReadTable> {
    let mut kinds = Kinds::default();
    let length = kinds.make(rng, WRITTEN, &LENGTHS, &TABLE_LENGTH);
    let size = tables::size(rng, 40);
    let table = tables::table(rng, &mut kinds, size);
    let table = with_any_names(rng, &mut kinds, table);
    let text = kinds.make(rng, TEXT, &table_texts::TEXTS, &table);
    Input { case: compare::ReadTable { text, table: lent(rng, length) }, kinds: kinds.0 }
}

pub fn table_text(rng: &mut Rng) -> Input<compare::TableText> {
    let mut kinds = Kinds::default();
    let table = tables::of_any_size(rng, &mut kinds);
    let table = lend(rng, &mut kinds, &lending::TABLE, &table);
    let length = kinds.make(rng, WRITTEN, &LENGTHS, &MAX_TEXT);
    Input { case: compare::TableText { table, text: lent(rng, length) }, kinds: kinds.0 }
}

pub fn combine(rng: &mut Rng) -> Input<compare::Combine> {
    let mut kinds = Kinds::default();
    let [first, second] = pairs::pair(rng, &mut kinds);
    let first = lend(rng, &mut kinds, &lending::FIRST, &first);
    let second = lend(rng, &mut kinds, &lending::SECOND, &second);
    let length = kinds.make(rng, WRITTEN, &LENGTHS, &TABLE_LENGTH);
    Input { case: compare::Combine { first, second, combined: lent(rng, length) }, kinds: kinds.0 }
}

pub fn read_formula(rng: &mut Rng) -> Input<compare::ReadFormula> {
    let mut kinds = Kinds::default();
    let size = tables::size(rng, 60);
    let table = tables::table(rng, &mut kinds, size);
    let table = with_any_names(rng, &mut kinds, table);
    let bytes = lend(rng, &mut kinds, &lending::TABLE, &table);
    let length = kinds.make(rng, WRITTEN, &LENGTHS, &FORMULA_LENGTH);
    let aside = &mut rng.aside(TEXT);
    let text = match aside.one_in(12) {
        true => kinds.make(aside, TEXT, &formula_texts::LOOKUPS, &table),
        false => kinds.make(rng, TEXT, &formula_texts::TEXTS, &table),
    };
    let case = compare::ReadFormula { table: bytes, text, formula: lent(rng, length) };
    Input { case, kinds: kinds.0 }
}

pub fn write_formula(rng: &mut Rng) -> Input<compare::WriteFormula> {
    let mut kinds = Kinds::default();
    let question = match rng.one_in(4) {
        true => questions::of_any_size(rng, &mut kinds, 100, 100),
        false => kinds.make(rng, WRITTEN_BACK, &written::QUESTIONS, &()),
    };
    let table = lend(rng, &mut kinds, &lending::TABLE, &question.table);
    let formula = lend(rng, &mut kinds, &lending::FORMULA, &question);
    let length = kinds.make(rng, WRITTEN, &LENGTHS, &MAX_BYTES);
    let case = compare::WriteFormula { table, formula, text: lent(rng, length) };
    Input { case, kinds: kinds.0 }
}

pub fn verdict(rng: &mut Rng) -> Input<compare::Verdict> {
    let mut kinds = Kinds::default();
    let question = questions::of_any_size(rng, &mut kinds, 40, 250);
    let table = lend(rng, &mut kinds, &lending::TABLE, &question.table);
    let formula = lend(rng, &mut kinds, &lending::FORMULA, &question);
    Input { case: compare::Verdict { table, formula }, kinds: kinds.0 }
}

pub fn verdicts(rng: &mut Rng) -> Input<compare::Verdicts> {
    let mut kinds = Kinds::default();
    let question = questions::of_any_size(rng, &mut kinds, 100, 400);
    let question = starts::telling(rng, question);
    let starts = starts::list(rng, &mut kinds, question.table.states);
    starts::note_where(&mut kinds, &question, &starts);
    let table = lend(rng, &mut kinds, &lending::TABLE, &question.table);
    let formula = lend(rng, &mut kinds, &lending::FORMULA, &question);
    let length = kinds.make(rng, WRITTEN, &LENGTHS, &MAX_STATES);
    let case = compare::Verdicts { table, formula, starts, answers: lent(rng, length) };
    Input { case, kinds: kinds.0 }
}

pub fn build(rng: &mut Rng) -> Input<compare::Build> {
    let mut kinds = Kinds::default();
    let question = questions::of_any_size(rng, &mut kinds, 100, 400);
    let table = lend(rng, &mut kinds, &lending::TABLE, &question.table);
    let formula = lend(rng, &mut kinds, &lending::FORMULA, &question);
    let listing = Listing::of(&question.table, &question.formula);
    let [rows, edges] = places(rng, &mut kinds, &listing);
    Input { case: compare::Build { table, formula, rows, edges }, kinds: kinds.0 }
}

pub fn smallest(rng: &mut Rng) -> Input<compare::Smallest> {
    let mut kinds = Kinds::default();
    let question = sets::question(rng, &mut kinds);
    let table = lend(rng, &mut kinds, &lending::TABLE, &question.table);
    let formula = lend(rng, &mut kinds, &lending::FORMULA, &question);
    let listing = Listing::of(&question.table, &question.formula);
    sets::note(&mut kinds, &listing);
    let [rows, edges] = places(rng, &mut kinds, &listing);
    let [smallest, work] =
        [(SMALLEST, SMALLEST_LENGTH), (WORK, WORK_LENGTH)].map(|(part, needed)| {
            let length = match rng.one_in(6) {
                true => kinds.make(rng, part, &LENGTHS, &needed),
                false => needed,
            };
            lent(rng, length)
        });
    let case = compare::Smallest { table, formula, rows, edges, smallest, work };
    Input { case, kinds: kinds.0 }
}

/// What is lent for the rows and the edges of a listing.
fn places(rng: &mut Rng, kinds: &mut Kinds, listing: &Listing) -> [Lent; 2] {
    let rows = kinds.make(rng, ROWS, &PLACES, &listing.rows.len());
    let edges = kinds.make(rng, EDGES, &PLACES, &listing.edges.len());
    [(rows, ROW_PLACE), (edges, EDGE_PLACE)]
        .map(|(places, size)| places * size + rng.pick(&[0, 0, 1, size - 1]))
        .map(|length| lent(rng, length))
}

/// Places lent where so many are needed; a part of one may be left over.
const PLACES: [Way<usize, usize>; 4] = [
    way("as many as needed", 7, &[0], |_, &needed| needed),
    way("one too few", 1, &[], |_, &needed| needed.saturating_sub(1)),
    way("too few or enough", 1, &[], |rng, &needed| rng.below(needed + 1)),
    way("more", 1, &[0], |rng, &needed| needed + rng.between(1, 8)),
];

pub fn accepts(rng: &mut Rng) -> Input<compare::Accepts> {
    let mut kinds = Kinds::default();
    let length = words::length(rng);
    let question = match length >= words::LONG && !rng.one_in(4) {
        true => questions::with_long_words(rng, &mut kinds, 100),
        false => questions::of_any_size(rng, &mut kinds, 100, 1_000),
    };
    let table = lend(rng, &mut kinds, &lending::TABLE, &question.table);
    let formula = lend(rng, &mut kinds, &lending::FORMULA, &question);
    let listing = Listing::of(&question.table, &question.formula);
    let word = words::word(rng, &mut kinds, &listing, question.table.labels(), length);
    Input { case: compare::Accepts { table, formula, word }, kinds: kinds.0 }
}

/// The texts of a question, or one of them any text.
pub fn explain(rng: &mut Rng) -> Input<compare::Explain> {
    let mut kinds = Kinds::default();
    let question = questions::of_any_size(rng, &mut kinds, 100, 1_000);
    let (any_table, any_formula) = match rng.below(4) {
        0 => (true, false),
        1 => (false, true),
        _ => (false, false),
    };
    let table_text = match any_table {
        true => kinds.make(rng, TABLE_TEXT, &table_texts::TEXTS, &question.table),
        false => question.table.text(),
    };
    let formula_text = match any_formula {
        true => kinds.make(rng, FORMULA_TEXT, &formula_texts::TEXTS, &question.table),
        false => {
            let tokens = formulas::tokens(rng, &question.formula, &question.table);
            formulas::spaced(rng, &tokens)
        }
    };
    let table = kinds.make(rng, TABLE_BUFFER, &LENGTHS, &TABLE_LENGTH);
    let formula = kinds.make(rng, FORMULA_BUFFER, &LENGTHS, &FORMULA_LENGTH);
    let listing = Listing::of(&question.table, &question.formula);
    let [rows, edges] = places(rng, &mut kinds, &listing);
    let case = compare::Explain {
        table_text,
        formula_text,
        table: lent(rng, table),
        formula: lent(rng, formula),
        rows,
        edges,
    };
    Input { case, kinds: kinds.0 }
}
