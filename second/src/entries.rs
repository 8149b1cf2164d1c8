//! The entries, byte for byte as in the C interface: any explainer's, and the second one's own.

use crate::formula::{Formula, MAX_BYTES};
use crate::interface::{interface, slice};
use crate::listing::Listing;
use crate::prepared::{self, FORMULA_LENGTH, TABLE_LENGTH};
use crate::reply::{Refusal, Reply};
use crate::smallest::{SMALLEST_LENGTH, WORK_LENGTH};
use crate::table::{MAX_STATES, MAX_TEXT, Table};
use crate::{combining, smallest, verdict, word, writing};

pub const ROW_PLACE: usize = 3;
pub const EDGE_PLACE: usize = 5;

macro_rules! entries {
    ($($type:ident $entry:ident $function:ident($($slice:ident: $kind:tt),*) [$($value:ident),*];)*) => {
        $(
            /// The values are written if the call is accepted.
            pub type $type = fn($($slice: slice!($kind),)* $($value: &mut u64),*) -> Reply;
        )*

        /// An explainer; an entry that it lacks is not compared.
        #[derive(Clone, Copy, Default)]
        pub struct Entries {
            $(pub $entry: Option<$type>),*
        }

        pub const NONE: Entries = Entries { $($entry: None),* };

        pub const SECOND: Entries = Entries { $($entry: Some($entry)),* };
    };
}

interface!(entries);

pub fn read_table(text: &[u8], table: &mut [u8]) -> Reply {
    let outcome = long_enough(table, TABLE_LENGTH)
        .and_then(|()| Table::read(text))
        .map(|read| prepare(&read, table));
    outcome.into()
}

pub fn table_text(table: &[u8], text: &mut [u8]) -> Reply {
    let outcome = long_enough(table, TABLE_LENGTH)
        .and_then(|()| long_enough(text, MAX_TEXT))
        .and_then(|()| prepared_table(table))
        .map(|table| write_text(&table.text(), text));
    outcome.into()
}

pub fn combine(first: &[u8], second: &[u8], combined: &mut [u8]) -> Reply {
    let outcome = [first, second, combined]
        .iter()
        .try_for_each(|table| long_enough(table, TABLE_LENGTH))
        .and_then(|()| combining::combined(&prepared_table(first)?, &prepared_table(second)?))
        .map(|table| prepare(&table, combined));
    outcome.into()
}

pub fn read_formula(table: &[u8], text: &[u8], formula: &mut [u8]) -> Reply {
    let outcome = both_long_enough(table, formula)
        .and_then(|()| prepared_table(table))
        .and_then(|table| Formula::read(&table, text))
        .map(|read| {
            formula[..FORMULA_LENGTH].copy_from_slice(&prepared::formula_bytes(&read));
            0
        });
    outcome.into()
}

pub fn write_formula(table: &[u8], formula: &[u8], text: &mut [u8]) -> Reply {
    let outcome = both_long_enough(table, formula)
        .and_then(|()| long_enough(text, MAX_BYTES))
        .and_then(|()| question(table, formula))
        .and_then(|(table, formula)| short_enough(writing::text(&table, &formula)))
        .map(|written| write_text(&written, text));
    outcome.into()
}

pub fn verdict(table: &[u8], formula: &[u8]) -> Reply {
    let question = question(table, formula);
    let verdict = question.map(|(table, formula)| verdict::holds(&table, &formula).into());
    verdict.into()
}

pub fn verdicts(table: &[u8], formula: &[u8], starts: &[u8], answers: &mut [u8]) -> Reply {
    let outcome = both_long_enough(table, formula)
        .and_then(|()| long_enough(answers, MAX_STATES))
        .and_then(|()| question(table, formula))
        .and_then(|(table, formula)| {
            verdict::check(starts, table.states)?;
            Ok(verdict::holds_at(starts, &table, &formula))
        })
        .map(|holds| {
            for (answer, &holds) in answers.iter_mut().zip(&holds) {
                *answer = holds.into();
            }
            (!holds.contains(&false)).into()
        });
    outcome.into()
}

pub fn build(
    table: &[u8],
    formula: &[u8],
    rows: &mut [u8],
    edges: &mut [u8],
    edge_count: &mut u64,
) -> Reply {
    let listing = match question(table, formula) {
        Ok((table, formula)) => Listing::of(&table, &formula),
        Err(refusal) => return refusal.into(),
    };
    let written = write_listing(&listing, rows, edges);
    if written.is_ok() {
        *edge_count = listing.edges.len() as u64;
    }
    written.map(|()| listing.rows.len() as u64).into()
}

/// The listing, and the smallest automaton of its words. The work buffer is cleared, whatever is answered
/// behind 14, and not used.
pub fn smallest(
    table: &[u8],
    formula: &[u8],
    rows: &mut [u8],
    edges: &mut [u8],
    smallest: &mut [u8],
    work: &mut [u8],
    edge_count: &mut u64,
) -> Reply {
    let are_long = both_long_enough(table, formula)
        .and_then(|()| long_enough(smallest, SMALLEST_LENGTH))
        .and_then(|()| long_enough(work, WORK_LENGTH));
    if let Err(refusal) = are_long {
        return refusal.into();
    }
    work[..WORK_LENGTH].fill(0);
    let outcome = question(table, formula).and_then(|(table, formula)| {
        let listing = Listing::of(&table, &formula);
        has_places(&listing, rows.len() / ROW_PLACE, edges.len() / EDGE_PLACE)?;
        let bytes = smallest::smallest(&listing)?.bytes();
        smallest[..bytes.len()].copy_from_slice(&bytes);
        write_listing(&listing, rows, edges)?;
        *edge_count = listing.edges.len() as u64;
        Ok(listing.rows.len() as u64)
    });
    outcome.into()
}

pub fn accepts(table: &[u8], formula: &[u8], letters: &[u8]) -> Reply {
    let outcome = question(table, formula).and_then(|(table, formula)| {
        word::check(letters, table.labels())?;
        Ok(word::is_accepted(&table, &formula, letters).into())
    });
    outcome.into()
}

/// From the two texts to the listing. Nothing is written unless all of it is.
#[allow(clippy::too_many_arguments)]
pub fn explain(
    table_text: &[u8],
    formula_text: &[u8],
    table: &mut [u8],
    formula: &mut [u8],
    rows: &mut [u8],
    edges: &mut [u8],
    verdict: &mut u64,
    formula_class: &mut u64,
    edge_count: &mut u64,
) -> Reply {
    let mut explained = || {
        both_long_enough(table, formula)?;
        let table = Table::read(table_text)?;
        let formula = Formula::read(&table, formula_text)?;
        let listing = Listing::of(&table, &formula);
        write_listing(&listing, rows, edges)?;
        Ok((table, formula, listing))
    };
    let (table_read, formula_read, listing) = match explained() {
        Ok(explained) => explained,
        Err(refusal) => return Refusal::into(refusal),
    };
    prepare(&table_read, table);
    formula[..FORMULA_LENGTH].copy_from_slice(&prepared::formula_bytes(&formula_read));
    *verdict = verdict::holds(&table_read, &formula_read).into();
    *formula_class = formula_read.root_class().number();
    *edge_count = listing.edges.len() as u64;
    Reply::accepted(listing.rows.len() as u64)
}

/// Refusals 11 and 12.
pub fn has_places(listing: &Listing, rows: usize, edges: usize) -> Result<(), Refusal> {
    if listing.rows.len() > rows {
        return Err(Refusal::RowPlaces(listing.rows.len()));
    }
    if listing.edges.len() > edges {
        return Err(Refusal::EdgePlaces(listing.edges.len()));
    }
    Ok(())
}

fn write_listing(listing: &Listing, rows: &mut [u8], edges: &mut [u8]) -> Result<(), Refusal> {
    has_places(listing, rows.len() / ROW_PLACE, edges.len() / EDGE_PLACE)?;
    for (place, row) in rows.chunks_mut(ROW_PLACE).zip(&listing.rows) {
        place.copy_from_slice(&[row.place, row.state, row.is_final.into()]);
    }
    for (place, edge) in edges.chunks_mut(EDGE_PLACE).zip(&listing.edges) {
        place[0..2].copy_from_slice(&edge.row.to_le_bytes());
        place[2] = edge.label;
        place[3..5].copy_from_slice(&edge.target.to_le_bytes());
    }
    Ok(())
}

/// Refusal 15.
pub fn short_enough(text: Vec<u8>) -> Result<Vec<u8>, Refusal> {
    match text.len() {
        0..=MAX_BYTES => Ok(text),
        length => Err(Refusal::TextLength(length)),
    }
}

/// The figure of an accepted call that prepares a table.
fn prepare(table: &Table, lent: &mut [u8]) -> u64 {
    lent[..TABLE_LENGTH].copy_from_slice(&prepared::table_bytes(table));
    0
}

/// The figure of an accepted call that writes a text.
fn write_text(written: &[u8], text: &mut [u8]) -> u64 {
    text[..written.len()].copy_from_slice(written);
    written.len() as u64
}

/// Refusal 10.
fn prepared_table(bytes: &[u8]) -> Result<Table, Refusal> {
    prepared::table_of(bytes).ok_or(Refusal::PreparedTable)
}

/// Refusals 14 and 10.
fn question(table: &[u8], formula: &[u8]) -> Result<(Table, Formula), Refusal> {
    both_long_enough(table, formula)?;
    let table = prepared_table(table)?;
    let formula = prepared::formula_of(formula, table.labels());
    Ok((table, formula.ok_or(Refusal::PreparedFormula)?))
}

/// The table is looked at first.
fn both_long_enough(table: &[u8], formula: &[u8]) -> Result<(), Refusal> {
    long_enough(table, TABLE_LENGTH)?;
    long_enough(formula, FORMULA_LENGTH)
}

fn long_enough(buffer: &[u8], length: usize) -> Result<(), Refusal> {
    (buffer.len() >= length).then_some(()).ok_or(Refusal::ShortBuffer(length))
}
