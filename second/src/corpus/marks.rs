//! The corpus `marks`, whose answers `corpus/marks.txt` holds: names marked by direction, operands of
//! a direction, and what is wrong with a mark. Like the corpus `base`, whose random numbers, tables
//! and formulas it uses, it is left alone.

use super::damage::{cut, damaged};
use super::folders::File;
use super::formulas::{FORMULA_LENGTH, Formula, MAX_BYTES, spaced};
use super::questions::{Question, either};
use super::rng::Rng;
use super::tables::Exits::{self, All, Any, Lacking};
use super::tables::{NAMES, TABLE_LENGTH, Table};
use super::{Input, Kind, Lent, calls, kind};

const MARKS: &[u8; 2] = b"?!";

pub const KINDS: [Kind; 51] = [
    kind("read_table", "marked", 700, |rng| read_table(rng, small(rng, Any).text())),
    kind("read_table", "three-of-a-stem", 400, |rng| read_table(rng, threes(rng, Any).text())),
    kind("read_table", "12-letters-and-a-mark", 300, |rng| {
        read_table(rng, longest_names(rng, Table::small(rng, Any)).text())
    }),
    kind("read_table", "largest", 60, |rng| {
        read_table(rng, longest_names(rng, Table::largest(rng, Any)).text())
    }),
    kind("read_table", "two-marks", 300, |rng| edited(rng, |rng, name| name.push(rng.pick(MARKS)))),
    kind("read_table", "mark-alone", 100, |rng| {
        edited(rng, |_, name| drop(name.drain(..name.len() - 1)))
    }),
    kind("read_table", "blank-before-a-mark", 200, |rng| {
        edited(rng, |_, name| name.insert(name.len() - 1, b' '))
    }),
    kind("read_table", "13-letters-and-a-mark", 300, |rng| edited(rng, lengthened)),
    kind("read_table", "blank-behind-a-mark", 100, |rng| edited(rng, |_, name| name.push(b' '))),
    kind("read_table", "mark-inside", 200, |rng| {
        edited(rng, |rng, name| name.insert(rng.below(name.len()), rng.pick(MARKS)))
    }),
    kind("read_table", "name-again-by-its-mark", 400, |rng| {
        let mut table = threes(rng, Any);
        let [one, other] = [rng.below(table.labels()), rng.below(table.labels())];
        table.names[one] = table.names[other].clone();
        read_table(rng, table.text())
    }),
    kind("read_table", "damaged", 700, |rng| {
        read_table(rng, damaged(rng, small(rng, Any).text(), byte))
    }),
    kind("read_table", "cut", 240, |rng| read_table(rng, cut(rng, small(rng, Any).text()))),
    kind("read_formula", "marked-class-1", 600, |rng| {
        over(rng, small, |rng, of| named(rng, of, 1))
    }),
    kind("read_formula", "marked-class-2", 400, |rng| {
        over(rng, small, |rng, of| named(rng, of, 2))
    }),
    kind("read_formula", "operands-class-1", 700, |rng| {
        over(rng, small, |rng, table| directed(rng, table, 1))
    }),
    kind("read_formula", "operands-class-2", 500, |rng| {
        over(rng, small, |rng, table| directed(rng, table, 2))
    }),
    kind("read_formula", "operands-over-three-of-a-stem", 400, |rng| {
        over(rng, threes, |rng, table| directed(rng, table, 1))
    }),
    kind("read_formula", "operands-over-no-marks", 300, |rng| {
        over(rng, Table::small, |rng, table| directed(rng, table, 1))
    }),
    kind("read_formula", "operands-over-no-labels", 100, |rng| {
        over(rng, Table::without_labels, |rng, table| directed(rng, table, 1))
    }),
    kind("read_formula", "operands-over-largest-tables", 60, |rng| {
        over(rng, largest, |rng, table| directed(rng, table, 1))
    }),
    kind("read_formula", "512-bytes-of-operands", 40, |rng| {
        over(rng, small, |rng, _| {
            let operand: &str = rng.pick(&["?|", "!|", "~?|", "(!)|"]);
            let set = operand.repeat((MAX_BYTES - 6) / operand.len());
            [b"EX[".as_slice(), set.as_bytes(), b"*]T"].concat()
        })
    }),
    kind("read_formula", "unknown-by-its-mark", 500, |rng| {
        over(rng, small, |rng, table| {
            let mut name = table.names[rng.below(table.labels())].clone();
            exchanged(rng, &mut name);
            next(&name)
        })
    }),
    kind("read_formula", "one-more-mark", 200, |rng| {
        over(rng, small, |rng, table| next(&[some_name(rng, table), mark(rng)].concat()))
    }),
    kind("read_formula", "blank-before-a-mark", 200, |rng| {
        over(rng, small, |rng, table| {
            next(&[some_name(rng, table), b" ".to_vec(), mark(rng)].concat())
        })
    }),
    kind("read_formula", "13-letters-and-a-mark", 200, |rng| {
        over(rng, small, |rng, table| {
            let mut name = some_name(rng, table);
            lengthened(rng, &mut name);
            next(&name)
        })
    }),
    kind("read_formula", "operands-side-by-side", 200, |rng| {
        over(rng, small, |rng, table| {
            let two = [&mark(rng), &some_name(rng, table), &b" ".to_vec(), &b".".to_vec()];
            next(&[mark(rng), rng.pick(&two).clone()].concat())
        })
    }),
    kind("read_formula", "damaged", 700, |rng| {
        over(rng, small, |rng, table| damaged(rng, directed(rng, table, 1), byte))
    }),
    kind("read_formula", "cut", 300, |rng| {
        over(rng, small, |rng, table| cut(rng, directed(rng, table, 1)))
    }),
    kind("read_formula", "table-names-damaged", 600, |rng| {
        let table = small(rng, Any);
        let text = directed(rng, &table, 1);
        read_formula(rng, names_damaged(rng, &table), text)
    }),
    kind("verdict", "marked-with-exits", 400, |rng| calls::verdict(either(rng, small(rng, All)))),
    kind("verdict", "marked-some-without", 400, |rng| {
        calls::verdict(either(rng, small(rng, Lacking)))
    }),
    kind("verdict", "table-names-damaged", 400, |rng| calls::verdict(with_damaged_names(rng))),
    kind("build", "marked-with-exits", 400, |rng| calls::build(rng, either(rng, small(rng, All)))),
    kind("build", "marked-some-without", 400, |rng| {
        calls::build(rng, either(rng, small(rng, Lacking)))
    }),
    kind("build", "table-names-damaged", 400, |rng| calls::build(rng, with_damaged_names(rng))),
    kind("accepts", "marked-with-exits", 400, |rng| {
        calls::accepts(rng, either(rng, small(rng, All)))
    }),
    kind("accepts", "marked-some-without", 400, |rng| {
        calls::accepts(rng, either(rng, small(rng, Lacking)))
    }),
    kind("accepts", "table-names-damaged", 400, |rng| calls::accepts(rng, with_damaged_names(rng))),
    kind("texts", "marked-with-exits", 400, |rng| texts(rng, small(rng, All), named)),
    kind("texts", "marked-some-without", 300, |rng| texts(rng, small(rng, Lacking), named)),
    kind("texts", "operands-with-exits", 600, |rng| texts(rng, small(rng, All), directed)),
    kind("texts", "operands-some-without", 500, |rng| texts(rng, small(rng, Lacking), directed)),
    kind("texts", "operands-over-three-of-a-stem", 200, |rng| {
        texts(rng, threes(rng, All), directed)
    }),
    kind("program", "operands-with-exits", 60, |rng| {
        let table = small(rng, All);
        let formula = directed(rng, &table, 1);
        files(table.text(), formula)
    }),
    kind("program", "operands-some-without", 40, |rng| {
        let table = small(rng, Lacking);
        let formula = directed(rng, &table, 2);
        files(table.text(), formula)
    }),
    kind("program", "largest-table", 5, |rng| files(largest(rng, All).text(), b"EX[?] T\n".into())),
    kind("program", "table-longer-than-any", 5, |rng| {
        let mut text = largest(rng, All).text();
        text.resize(rng.pick(&[20_322, 20_323, 65_536]), rng.pick(b"\n 9"));
        files(text, b"T\n".into())
    }),
    kind("program", "table-two-marks", 10, |rng| {
        let Input::ReadTable { text, .. } = edited(rng, |_, name| name.push(b'?')) else {
            unreachable!("a table's text");
        };
        files(text, b"T\n".into())
    }),
    kind("program", "unknown-by-its-mark", 20, |rng| {
        let table = small(rng, All);
        let mut name = some_name(rng, &table);
        exchanged(rng, &mut name);
        files(table.text(), next(&name))
    }),
    kind("program", "formula-damaged", 20, |rng| {
        let table = small(rng, All);
        let formula = damaged(rng, directed(rng, &table, 1), byte);
        files(table.text(), formula)
    }),
];

pub fn kinds() -> impl Iterator<Item = Kind> {
    KINDS.into_iter()
}

fn read_table(rng: &Rng, text: Vec<u8>) -> Input {
    Input::ReadTable { text, table: Lent::drawn(rng, TABLE_LENGTH) }
}

fn read_formula(rng: &Rng, table: Vec<u8>, text: Vec<u8>) -> Input {
    Input::ReadFormula { table, text, formula: Lent::drawn(rng, FORMULA_LENGTH) }
}

fn over(rng: &Rng, table: fn(&Rng, Exits) -> Table, text: fn(&Rng, &Table) -> Vec<u8>) -> Input {
    let table = table(rng, Any);
    let text = text(rng, &table);
    read_formula(rng, table.bytes(), text)
}

fn files(table: Vec<u8>, formula: Vec<u8>) -> Input {
    Input::Program { table: File::Holds(table), formula: File::Holds(formula) }
}

/// Both texts in turn, and a word of any letters.
fn texts(rng: &Rng, table: Table, text: fn(&Rng, &Table, u8) -> Vec<u8>) -> Input {
    let formula = text(rng, &table, rng.between(1, 2) as u8);
    let word = (0..rng.below(7)).map(|_| rng.below(table.labels() + 1) as u8).collect();
    let [rows, edges] = [3 * 200, 5 * 1_200].map(|length| Lent::drawn(rng, length));
    Input::Texts { table: table.text(), formula, rows, edges, word }
}

fn mark(rng: &Rng) -> Vec<u8> {
    vec![rng.pick(MARKS)]
}

/// A byte of tables and formulas, often a mark.
fn byte(rng: &Rng) -> u8 {
    rng.pick(b"???!!!  \n01az_ET~|()[];.*")
}

/// A small table, each of whose names has a mark or none.
pub fn small(rng: &Rng, exits: Exits) -> Table {
    let mut table = Table::small(rng, exits);
    for name in &mut table.names {
        name.extend(rng.pick(&[None, Some(b'?'), Some(b'!')]));
    }
    table
}

/// One or two stems, each with either mark and without one, in any order.
pub fn threes(rng: &Rng, exits: Exits) -> Table {
    let stems = rng.between(1, 2);
    let mut table = Table::drawn(rng, exits, rng.between(1, 6), 3 * stems, rng.below(13));
    let turn = rng.below(3 * stems);
    let named = table.names[..stems].to_vec();
    for (at, name) in table.names.iter_mut().enumerate() {
        let at = (at + turn) % (3 * stems);
        *name = named[at % stems].clone();
        name.extend([None, Some(b'?'), Some(b'!')][at / stems]);
    }
    table
}

/// Each name of twelve letters and a mark.
fn longest_names(rng: &Rng, mut table: Table) -> Table {
    for (name, label) in table.names.iter_mut().zip(10..) {
        name.resize(10, b'_');
        name.extend_from_slice(format!("{label}").as_bytes());
        name.push(rng.pick(MARKS));
    }
    table
}

pub fn largest(rng: &Rng, exits: Exits) -> Table {
    longest_names(rng, Table::largest(rng, exits))
}

/// The text of a small table with a mark behind some name, and the name edited.
fn edited(rng: &Rng, edit: fn(&Rng, &mut Vec<u8>)) -> Input {
    let mut table = Table::small(rng, Any);
    let label = rng.below(table.labels());
    table.names[label].push(rng.pick(MARKS));
    edit(rng, &mut table.names[label]);
    read_table(rng, table.text())
}

/// Letters before the mark, if there is one, up to thirteen or a few more.
fn lengthened(rng: &Rng, name: &mut Vec<u8>) {
    let mark = name.pop_if(|last| MARKS.contains(last)).unwrap_or(b'?');
    name.resize(rng.pick(&[13, 13, 14, 20]), b'a');
    name.push(mark);
}

/// The other mark or none in place of a mark, or a mark in place of none.
fn exchanged(rng: &Rng, name: &mut Vec<u8>) {
    let mark = name.pop_if(|last| MARKS.contains(last));
    let others = [None, Some(b'?'), Some(b'!')];
    let others: Vec<_> = others.into_iter().filter(|other| *other != mark).collect();
    name.extend(rng.pick(&others));
}

fn some_name(rng: &Rng, table: &Table) -> Vec<u8> {
    table.names[rng.below(table.labels())].clone()
}

fn next(operand: &[u8]) -> Vec<u8> {
    [b"EX[".as_slice(), operand, b"] T"].concat()
}

/// A formula's text over the table's names.
fn named(rng: &Rng, table: &Table, class: u8) -> Vec<u8> {
    written(rng, table, class, |_, tokens| tokens)
}

/// A formula's text in which names and `*` have given way to operands of a direction.
pub fn directed(rng: &Rng, table: &Table, class: u8) -> Vec<u8> {
    written(rng, table, class, |rng, tokens| {
        let turned = |token: Vec<u8>| -> Tokens {
            let is_operand = token[0].is_ascii_lowercase() || token == b"*";
            let (tilde, open, close) = (b"~".to_vec(), b"(".to_vec(), b")".to_vec());
            match rng.below(8) {
                _ if !is_operand => vec![token],
                0..3 => vec![mark(rng)],
                3 => vec![tilde, mark(rng)],
                4 => vec![open, mark(rng), b"|".to_vec(), token, close],
                5 => vec![tilde, open, token, b"|".to_vec(), mark(rng), close],
                _ => vec![token],
            }
        };
        tokens.into_iter().flat_map(turned).collect()
    })
}

type Tokens = Vec<Vec<u8>>;

/// In 512 bytes.
fn written(rng: &Rng, table: &Table, class: u8, edit: fn(&Rng, Tokens) -> Tokens) -> Vec<u8> {
    loop {
        let formula = Formula::small(rng, class, table.labels());
        let tokens = edit(rng, formula.tokens(rng, &table.names));
        let text = spaced(rng, &tokens, rng.below(2));
        if text.len() <= MAX_BYTES {
            return text;
        }
    }
}

/// The prepared bytes of a table, a name's slot damaged at its length or about its mark.
fn names_damaged(rng: &Rng, table: &Table) -> Vec<u8> {
    let mut bytes = table.bytes();
    let label = rng.below(table.labels());
    let (slot, length) = (NAMES + 16 * label, table.names[label].len());
    match rng.below(4) {
        0 => bytes[slot] = rng.pick(&[length - 1, length + 1, 12, 13, 14]) as u8,
        1 => bytes[slot + length] = rng.pick(MARKS),
        2 => bytes[slot + rng.between(1, length)] = rng.pick(MARKS),
        _ => {
            bytes[slot] = length as u8 + 1;
            bytes[slot + length + 1] = rng.pick(MARKS);
        }
    }
    bytes
}

fn with_damaged_names(rng: &Rng) -> Question {
    let mut question = either(rng, small(rng, All));
    question.table_bytes = names_damaged(rng, &question.table);
    question
}

#[cfg(test)]
mod tests {
    use super::*;

    #[test]
    fn a_largest_table_has_20321_bytes() {
        let rng = &Rng::of("read_table", "largest", 0);
        assert_eq!(largest(rng, Any).text().len(), 20_321);
    }

    #[test]
    fn most_inputs_with_a_text_have_a_mark() {
        let has_mark = |text: &[u8]| text.iter().any(|byte| MARKS.contains(byte));
        let (mut with, mut all) = (0, 0);
        for input in kinds().flat_map(|kind| (0..20).map(move |index| kind.input(index))) {
            let (Input::ReadTable { text, .. }
            | Input::ReadFormula { text, .. }
            | Input::Texts { formula: text, .. }) = input
            else {
                continue;
            };
            with += u32::from(has_mark(&text));
            all += 1;
        }
        assert!(4 * with > 3 * all, "{with} of {all}");
    }
}
