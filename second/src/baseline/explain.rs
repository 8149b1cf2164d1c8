//! From the two texts to the listing: both readings into scratch, one labelling for the verdict and
//! the rows.

use super::automaton::listed;
use super::prepared::{checked_formula, checked_table};
use super::read_formula::read_formula;
use super::read_table::read_table;
use crate::prepared::{FORMULA_LENGTH, TABLE_LENGTH};
use crate::reply::{Refusal, Reply};

#[allow(clippy::too_many_arguments)]
pub fn explain(
    table_text: &[u8],
    formula_text: &[u8],
    table: &mut [u8],
    formula: &mut [u8],
    rows: &mut [u8],
    edges: &mut [u8],
    verdict: &mut u64,
    formula_class: &mut u64,
    edge_count: &mut u64,
) -> Reply {
    if table.len() < TABLE_LENGTH {
        return Refusal::ShortBuffer(TABLE_LENGTH).into();
    }
    if formula.len() < FORMULA_LENGTH {
        return Refusal::ShortBuffer(FORMULA_LENGTH).into();
    }
    let (mut table_read, mut formula_read) = ([0; TABLE_LENGTH], [0; FORMULA_LENGTH]);
    let mut reply = read_table(table_text, &mut table_read);
    if reply.number == 0 {
        reply = read_formula(&table_read, formula_text, &mut formula_read);
    }
    if reply.number != 0 {
        return reply;
    }
    let prepared = checked_table(&table_read).expect("a reading leaves a table");
    let question = checked_formula(&formula_read, prepared.labels).expect("and a formula");
    let listed = match listed(&prepared, &question, rows, edges) {
        Ok(listed) => listed,
        Err(refusal) => return refusal.into(),
    };
    table[..TABLE_LENGTH].copy_from_slice(&table_read);
    formula[..FORMULA_LENGTH].copy_from_slice(&formula_read);
    let class = question.nodes[0].class;
    *verdict = (listed.is_explained == (class == 1)).into();
    *formula_class = class.into();
    *edge_count = listed.edges as u64;
    Reply::accepted(listed.rows as u64)
}
