//! Texts of formulas over prepared tables: grammatical ones, each refusal, damaged texts, damaged
//! tables, and buffers too short or longer.

use super::damage::{self, any_byte, base_byte, bytes, cut, damaged};
use super::formulas::{FORMULA_LENGTH, Formula, MAX_BYTES, spaced};
use super::questions::damaged_table;
use super::rng::Rng;
use super::tables::{Exits::Any, TABLE_LENGTH, Table, name};
use super::{Input, Kind, Lent};

const fn kind(name: &'static str, count: u64, make: fn(&Rng) -> Input) -> Kind {
    super::kind("read_formula", name, count, make)
}

pub const KINDS: [Kind; 31] = [
    kind("class-1", 2_000, |rng| over_small(rng, |rng, table| written(rng, table, 1, 0))),
    kind("class-2", 1_700, |rng| over_small(rng, |rng, table| written(rng, table, 2, 0))),
    kind("blanks", 1_700, |rng| over_small(rng, |rng, table| written(rng, table, 1, 3))),
    kind("any-form", 700, |rng| over_small(rng, |rng, table| written(rng, table, 0, 1))),
    kind("without-class", 600, |rng| {
        over_small(rng, |rng, table| {
            let formula = Formula::without_class(rng, table.labels());
            spaced(rng, &formula.tokens(rng, &table.names), 1)
        })
    }),
    kind("over-medium-tables", 1_000, |rng| {
        let table = Table::medium(rng, Any);
        exact(rng, table.bytes(), written(rng, &table, 1, 1))
    }),
    kind("over-largest-tables", 300, |rng| {
        let table = Table::largest(rng, Any);
        exact(rng, table.bytes(), written(rng, &table, 1, 1))
    }),
    kind("over-no-labels", 700, |rng| {
        let table = Table::without_labels(rng, Any);
        exact(rng, table.bytes(), written(rng, &table, 2, 1))
    }),
    kind("40-nodes", 700, |rng| over_small(rng, |rng, _| nodes(rng, 40))),
    kind("over-40-nodes", 700, |rng| over_small(rng, |rng, _| nodes(rng, rng.between(41, 60)))),
    kind("negations", 400, |rng| {
        over_small(rng, |rng, _| nested(&["~"], rng.between(36, 42), "T", &[""]))
    }),
    kind("deep-brackets", 500, |rng| {
        over_small(rng, |rng, _| nested(&["("], rng.pick(&[20, 100, 254, 255]), "T", &[")"]))
    }),
    kind("deep-terms-and-brackets", 400, |rng| {
        over_small(rng, |rng, _| nested(&["~", "("], rng.between(10, 40), "T", &[")"]))
    }),
    kind("deep-sets", 500, |rng| {
        over_small(rng, |rng, _| {
            let set = nested(&["(", "~"], rng.pick(&[10, 100, 160]), "*", &[")"]);
            [b"EU[*;".to_vec(), set, b"]T".to_vec()].concat()
        })
    }),
    kind("deep-uneven", 500, |rng| {
        over_small(rng, |rng, _| {
            let (open, close) = (rng.between(1, 250), rng.between(1, 250));
            [vec![b'('; open], b"T".to_vec(), vec![b')'; close]].concat()
        })
    }),
    kind("512-bytes", 500, |rng| over_small(rng, |rng, table| padded(rng, table, MAX_BYTES))),
    kind("over-512-bytes", 500, |rng| {
        over_small(rng, |rng, table| padded(rng, table, rng.pick(&[513, 514, 600, 1_024, 5_000])))
    }),
    kind("unknown-name", 600, |rng| {
        over_small(rng, |rng, table| {
            let unknown = [b"q".to_vec(), name(rng, 11)].concat();
            let next = [b" | EX[".to_vec(), unknown, b"] T".to_vec()].concat();
            [written(rng, table, 1, 1), next].concat()
        })
    }),
    kind("name-over-12-bytes", 300, |rng| {
        over_small(rng, |rng, _| {
            let long = [b"a".to_vec(), vec![b'b'; rng.between(10, 14)]].concat();
            [b"EX[".to_vec(), long, b"] T".to_vec()].concat()
        })
    }),
    kind("random-tokens", 800, |rng| over_small(rng, random_tokens)),
    kind("tokens-moved", 600, |rng| over_small(rng, tokens_moved)),
    kind("cut", 500, |rng| over_small(rng, |rng, table| cut(rng, written(rng, table, 1, 1)))),
    kind("damaged-base-bytes", 700, |rng| {
        over_small(rng, |rng, table| damaged(rng, written(rng, table, 1, 1), base_byte))
    }),
    kind("damaged-any-byte", 400, |rng| {
        over_small(rng, |rng, table| damaged(rng, written(rng, table, 1, 1), any_byte))
    }),
    kind("random-bytes", 300, |rng| {
        over_small(rng, |rng, _| bytes(rng, rng.below(40), rng.pick(&[any_byte, base_byte])))
    }),
    kind("table-damaged", 500, |rng| {
        let table = Table::small(rng, Any);
        exact(rng, damaged_table(rng, &table), written(rng, &table, 1, 1))
    }),
    kind("table-random", 50, |rng| {
        let text = written(rng, &Table::small(rng, Any), 1, 1);
        exact(rng, bytes(rng, TABLE_LENGTH, any_byte), text)
    }),
    kind("table-longer", 400, |rng| resized(rng, damage::longer, |_, length| length)),
    kind("table-short", 250, |rng| resized(rng, damage::shorter, |_, length| length)),
    kind("buffer-longer", 950, |rng| resized(rng, |_, length| length, damage::longer)),
    kind("buffer-short", 250, |rng| resized(rng, damage::longer, damage::shorter)),
];

fn exact(rng: &Rng, table: Vec<u8>, text: Vec<u8>) -> Input {
    Input::ReadFormula { table, text, formula: Lent::drawn(rng, FORMULA_LENGTH) }
}

fn over_small(rng: &Rng, text: fn(&Rng, &Table) -> Vec<u8>) -> Input {
    let table = Table::small(rng, Any);
    let text = text(rng, &table);
    exact(rng, table.bytes(), text)
}

type Length = fn(&Rng, usize) -> usize;

fn resized(rng: &Rng, table_length: Length, formula_length: Length) -> Input {
    let table = Table::small(rng, Any);
    let prepared = damage::resized(rng, table.bytes(), table_length(rng, TABLE_LENGTH));
    let text = written(rng, &table, rng.between(1, 2) as u8, 1);
    let length = formula_length(rng, FORMULA_LENGTH);
    Input::ReadFormula { table: prepared, text, formula: Lent::drawn(rng, length) }
}

/// A formula of the class, or of any form (0), in 512 bytes.
pub fn written(rng: &Rng, table: &Table, class: u8, blanks: usize) -> Vec<u8> {
    loop {
        let formula = Formula::small(rng, class, table.labels());
        let text = spaced(rng, &formula.tokens(rng, &table.names), blanks);
        if text.len() <= MAX_BYTES {
            return text;
        }
    }
}

/// Exactly so many nodes, in few bytes.
pub fn nodes(rng: &Rng, count: usize) -> Vec<u8> {
    let formula = Formula::drawn(rng, rng.between(1, 2) as u8, count, 0);
    spaced(rng, &formula.tokens(rng, &[]), 0)
}

fn nested(open: &[&str], depth: usize, inner: &str, close: &[&str]) -> Vec<u8> {
    let (open, close) = (open.concat().repeat(depth), close.concat().repeat(depth));
    [open.as_str(), inner, close.as_str()].concat().into_bytes()
}

/// Blanks after the first token up to so many bytes, or after the last, which the grammar lacks.
pub fn padded(rng: &Rng, table: &Table, length: usize) -> Vec<u8> {
    let mut text = [b"~~(".to_vec(), written(rng, table, 1, 0), b")".to_vec()].concat();
    let at = if rng.one_in(8) { text.len() } else { rng.between(1, 3) };
    text.splice(at..at, std::iter::repeat_n(b' ', length.saturating_sub(text.len())));
    text
}

const MARKS: [&str; 14] = ["T", "~", "|", "EX", "AX", "EU", "[", "]", "(", ")", ";", ".", "*", "E"];

fn random_tokens(rng: &Rng, table: &Table) -> Vec<u8> {
    let token = |_| match rng.one_in(6) {
        true => table.names[rng.below(table.labels())].clone(),
        false => rng.pick(&MARKS).into(),
    };
    let tokens: Vec<Vec<u8>> = (0..rng.below(12)).map(token).collect();
    spaced(rng, &tokens, 1)
}

/// A token lost, put in, replaced, or exchanged with the next.
fn tokens_moved(rng: &Rng, table: &Table) -> Vec<u8> {
    let formula = Formula::drawn(rng, 1, rng.between(2, 9), table.labels());
    let mut tokens = formula.tokens(rng, &table.names);
    let at = rng.below(tokens.len() - 1);
    match rng.below(4) {
        0 => drop(tokens.remove(at)),
        1 => tokens.insert(at, rng.pick(&MARKS).into()),
        2 => tokens[at] = rng.pick(&MARKS).into(),
        _ => tokens.swap(at, at + 1),
    }
    spaced(rng, &tokens, 1)
}
