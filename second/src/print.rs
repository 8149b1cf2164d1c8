//! The listing of the program `explain`, from its two files to its text.

use std::fs;
use std::path::Path;

use crate::columns::write_line;
use crate::entries::{self, EDGE_PLACE, ROW_PLACE};
use crate::prepared::{self, FORMULA_LENGTH, TABLE_LENGTH};
use crate::reply::Reply;

pub const ROW_PLACES: usize = 1_024;
pub const EDGE_PLACES: usize = 4_096;

/// What `explain` prints in this folder.
pub fn explain_folder(folder: &Path) -> Vec<u8> {
    let [table, formula] = files_in(folder);
    explain_files(&table, &formula)
}

/// 01: "a file that can't be opened counts as empty".
pub fn files_in(folder: &Path) -> [Vec<u8>; 2] {
    ["table.txt", "formula.txt"].map(|name| fs::read(folder.join(name)).unwrap_or_default())
}

pub fn explain_files(table: &[u8], formula: &[u8]) -> Vec<u8> {
    explain(table, line_of(formula))
}

/// 01: "One LF at the end of `formula.txt` is dropped."
pub fn line_of(formula: &[u8]) -> &[u8] {
    formula.strip_suffix(b"\n").unwrap_or(formula)
}

pub fn explain(table_text: &[u8], formula_text: &[u8]) -> Vec<u8> {
    let mut text = Vec::new();
    match list(table_text, formula_text, &mut text) {
        Ok(()) => text,
        Err(refused) => refusal(refused),
    }
}

/// Number and figure in one line.
pub fn refusal(refused: Reply) -> Vec<u8> {
    let mut text = Vec::new();
    write_line(&[refused.number.into(), refused.figure], &mut text);
    text
}

fn list(table_text: &[u8], formula_text: &[u8], text: &mut Vec<u8>) -> Result<(), Reply> {
    let mut table = [0; TABLE_LENGTH];
    let mut formula = [0; FORMULA_LENGTH];
    let mut rows = [0; ROW_PLACES * ROW_PLACE];
    let mut edges = [0; EDGE_PLACES * EDGE_PLACE];
    let mut edge_count = 0;
    accepted(entries::read_table(table_text, &mut table))?;
    accepted(entries::read_formula(&table, formula_text, &mut formula))?;
    let verdict = accepted(entries::verdict(&table, &formula))?;
    let built = entries::build(&table, &formula, &mut rows, &mut edges, &mut edge_count);
    let row_count = accepted(built)?;
    write_line(&[verdict, class(&formula, &table), row_count, edge_count], text);
    for (row, number) in rows.chunks(ROW_PLACE).zip(0..row_count) {
        let [place, state, is_final] = [row[0], row[1], row[2]].map(u64::from);
        write_line(&[number, place, state, is_final], text);
    }
    for edge in edges.chunks(EDGE_PLACE).take(edge_count as usize) {
        let row = u16::from_le_bytes([edge[0], edge[1]]);
        let target = u16::from_le_bytes([edge[3], edge[4]]);
        write_line(&[row.into(), edge[2].into(), target.into()], text);
    }
    Ok(())
}

fn accepted(reply: Reply) -> Result<u64, Reply> {
    match reply.number {
        0 => Ok(reply.figure),
        _ => Err(reply),
    }
}

fn class(formula: &[u8], table: &[u8]) -> u64 {
    let labels = prepared::table_of(table).map(|table| table.labels());
    let formula = labels.and_then(|labels| prepared::formula_of(formula, labels));
    formula.expect("both readings accepted").root_class().number()
}
