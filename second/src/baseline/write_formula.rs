//! A formula's text in one pass over its nodes. The node behind a `T` is the right arm of some `|`,
//! the node behind any other is that one's only or left arm.

use super::graph::Bits;
use super::prepared::{
    ALL_NEXT, ALL_NEXT_SILENT, Formula, NEXT, NEXT_SILENT, NOT, OR, TRUE, Table, UNTIL_THEN,
    question_with,
};
use crate::formula::MAX_BYTES;
use crate::prepared::NAME_SLOT;
use crate::reply::{Refusal, Reply};

pub fn write_formula(table: &[u8], formula: &[u8], text: &mut [u8]) -> Reply {
    written(table, formula, text).into()
}

fn written(table: &[u8], formula: &[u8], text: &mut [u8]) -> Result<u64, Refusal> {
    let (table, formula) = question_with(table, formula, text, MAX_BYTES)?;
    let mut line = Line { bytes: [0; SCRATCH], length: 0 };
    line.formula(&table, &formula);
    match line.bytes[..MAX_BYTES].get(..line.length) {
        Some(bytes) => text[..line.length].copy_from_slice(bytes),
        None => return Err(Refusal::TextLength(line.length)),
    }
    Ok(line.length as u64)
}

/// A token is written in whole slots, of which only its own bytes count.
const SCRATCH: usize = MAX_BYTES + NAME_SLOT;

/// Past the end bytes are only counted.
struct Line {
    bytes: [u8; SCRATCH],
    length: usize,
}

impl Line {
    /// So many of these bytes.
    fn part<const N: usize>(&mut self, token: [u8; N], count: usize) {
        if let Some(place) = self.bytes[self.length.min(SCRATCH)..].first_chunk_mut() {
            *place = token;
        }
        self.length += count;
    }

    fn put<const N: usize>(&mut self, token: [u8; N]) {
        self.part(token, N);
    }

    fn formula(&mut self, table: &Table, formula: &Formula) {
        // A bit for each `|` that is not at its end, the innermost last: whether brackets stand around
        // it, and whether its right arm has begun.
        let (mut bracketed, mut at_right) = (0u64, 0u64);
        let mut before = OR;
        for node in formula.nodes() {
            if before == TRUE {
                self.put([b'|']);
                at_right |= 1;
            }
            match node.kind {
                OR => {
                    let is_arm = before != OR;
                    if is_arm {
                        self.put([b'(']);
                    }
                    bracketed = bracketed << 1 | u64::from(is_arm);
                    at_right <<= 1;
                }
                TRUE => {
                    self.put([b'T']);
                    while at_right & 1 == 1 {
                        if bracketed & 1 == 1 {
                            self.put([b')']);
                        }
                        bracketed >>= 1;
                        at_right >>= 1;
                    }
                }
                NOT => self.put([b'~']),
                NEXT_SILENT => self.put(*b"EX[.] "),
                ALL_NEXT_SILENT => self.put(*b"AX[.] "),
                kind => {
                    self.put(match kind {
                        NEXT => *b"EX",
                        ALL_NEXT => *b"AX",
                        _ => *b"EU",
                    });
                    self.set(table, node.first, b'[');
                    if kind == UNTIL_THEN {
                        self.set(table, node.then, b';');
                    }
                    self.put(*b"] ");
                }
            }
            before = node.kind;
        }
    }

    /// Behind this byte.
    fn set(&mut self, table: &Table, set: u64, mut before: u8) {
        let all = ((1 << table.labels) - 1) << 1;
        if set == all {
            return self.put([before, b'*']);
        }
        if set == 0 {
            return self.put([before, b'~', b'*']);
        }
        for label in Bits(set) {
            let mut token = table.names[label - 1];
            let length = token[0] as usize;
            token[0] = before;
            self.part(token, length + 1);
            before = b'|';
        }
    }
}
