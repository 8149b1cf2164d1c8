//! The corpus `written`, whose answers `corpus/written.txt` holds: prepared formulas to be written
//! back, by their sets, by where `|` stands and by the length of their text, prepared bytes that are
//! refused, and lines that are read, written back and read again. Like the corpus `base`, whose random
//! numbers, tables and formulas it uses, it is left alone.

use super::damage::{self, damaged};
use super::formulas::{
    ALL, Formula, MAX_BYTES, NEXT, NEXT_SILENT, NOT, OR, TRUE, UNTIL, UNTIL_THEN,
};
use super::questions::{Question, either, of_class};
use super::rng::Rng;
use super::tables::Exits::{All, Any};
use super::tables::Table;
use super::{Input, Kind, Lent, kind, marks, refused, short};

type Node = (u8, u64, u64);

pub const KINDS: [Kind; 28] = [
    kind("write_formula", "class-1", 800, |rng| write(rng, of_class(rng, small(rng), 1))),
    kind("write_formula", "class-2", 800, |rng| write(rng, of_class(rng, small(rng), 2))),
    kind("write_formula", "marked", 500, |rng| write(rng, either(rng, marks::small(rng, Any)))),
    kind("write_formula", "three-of-a-stem", 300, |rng| {
        write(rng, either(rng, marks::threes(rng, Any)))
    }),
    kind("write_formula", "medium", 400, |rng| write(rng, either(rng, Table::medium(rng, Any)))),
    kind("write_formula", "largest", 60, |rng| write(rng, either(rng, marks::largest(rng, Any)))),
    kind("write_formula", "no-labels", 300, |rng| {
        write(rng, either(rng, Table::without_labels(rng, Any)))
    }),
    kind("write_formula", "one-label", 400, |rng| write(rng, either(rng, of_labels(rng, 1)))),
    kind("write_formula", "sets-near-all-and-none", 500, |rng| {
        let table = of_labels(rng, rng.between(1, 6));
        let nodes = (0..rng.between(1, 5)).map(|_| head(rng, &table, near_the_ends)).collect();
        write(rng, with_nodes(rng, table, nodes))
    }),
    kind("write_formula", "sets-of-any-labels", 300, |rng| {
        let table = of_labels(rng, rng.between(4, 40));
        let nodes = (0..rng.between(1, 3)).map(|_| head(rng, &table, any_set)).collect();
        write(rng, with_nodes(rng, table, nodes))
    }),
    kind("write_formula", "or-in-or", 400, |rng| write(rng, with_or(rng, &[OR]))),
    kind("write_formula", "or-below-others", 600, |rng| {
        write(rng, with_or(rng, &[OR, OR, NOT, NEXT_SILENT, NEXT, UNTIL, UNTIL_THEN]))
    }),
    kind("write_formula", "511-bytes", 100, |rng| write(rng, of_length(rng, MAX_BYTES - 1))),
    kind("write_formula", "512-bytes", 100, |rng| write(rng, of_length(rng, MAX_BYTES))),
    kind("write_formula", "513-bytes", 100, |rng| write(rng, of_length(rng, MAX_BYTES + 1))),
    kind("write_formula", "514-to-1200-bytes", 100, |rng| {
        write(rng, of_length(rng, rng.between(MAX_BYTES + 2, 1_200)))
    }),
    kind("write_formula", "over-40000-bytes", 30, |rng| write(rng, longest(rng))),
    kind("write_formula", "text-longer", 300, |rng| {
        write_into(rng, either(rng, small(rng)), damage::longer(rng, MAX_BYTES))
    }),
    kind("write_formula", "text-short", 300, |rng| {
        write_into(rng, either(rng, small(rng)), damage::shorter(rng, MAX_BYTES))
    }),
    kind("write_formula", "text-short-formula-short", 100, |rng| {
        let question = either(rng, small(rng));
        let question = question.resized(rng, |_, length| length, damage::shorter);
        write_into(rng, question, damage::shorter(rng, MAX_BYTES))
    }),
    kind("write_formula", "text-short-of-513-bytes", 40, |rng| {
        write_into(rng, of_length(rng, MAX_BYTES + 1), damage::shorter(rng, MAX_BYTES))
    }),
    kind("read_back", "base-notation", 500, |rng| {
        read_back(rng, small(rng), |rng, of| super::read_formula::written(rng, of, 1, 1))
    }),
    kind("read_back", "short-forms", 500, |rng| {
        read_back(rng, small(rng), |rng, of| short::few(rng, of, rng.between(1, 2) as u8, 1))
    }),
    kind("read_back", "operands-of-a-direction", 400, |rng| {
        let table = marks::small(rng, Any);
        read_back(rng, table, |rng, of| marks::directed(rng, of, rng.between(1, 2) as u8))
    }),
    kind("read_back", "all-labels-by-name", 200, |rng| read_back(rng, small(rng), all_by_name)),
    kind("read_back", "complements-of-many-labels", 200, |rng| {
        let table = of_labels(rng, rng.between(5, 40));
        read_back(rng, table, |rng, table| {
            let set = |_| format!("EU[~{}] ", ascii(&table.names[rng.below(table.labels())]));
            let heads: String = (0..rng.between(1, 3)).map(set).collect();
            (heads + "T").into_bytes()
        })
    }),
    kind("read_back", "needless-brackets", 200, |rng| {
        read_back(rng, small(rng), |rng, of| {
            let text = super::read_formula::written(rng, of, 1, 1);
            let depth = rng.between(1, 3);
            [vec![b'('; depth], text, vec![b')'; depth]].concat()
        })
    }),
    kind("read_back", "damaged", 200, |rng| {
        read_back(rng, small(rng), |rng, of| {
            damaged(rng, short::few(rng, of, 1, 1), damage::base_byte)
        })
    }),
];

pub fn kinds() -> impl Iterator<Item = Kind> {
    KINDS.into_iter().chain(refused("write_formula", write))
}

fn write_into(rng: &Rng, question: Question, length: usize) -> Input {
    let Question { table_bytes: table, formula_bytes: formula, .. } = question;
    Input::WriteFormula { table, formula, text: Lent::drawn(rng, length) }
}

fn write(rng: &Rng, question: Question) -> Input {
    write_into(rng, question, MAX_BYTES)
}

fn read_back(rng: &Rng, table: Table, line: fn(&Rng, &Table) -> Vec<u8>) -> Input {
    let line = line(rng, &table);
    Input::ReadBack { table: table.text(), line, text: Lent::drawn(rng, MAX_BYTES) }
}

fn small(rng: &Rng) -> Table {
    Table::small(rng, All)
}

fn of_labels(rng: &Rng, labels: usize) -> Table {
    let mut table = Table::drawn(rng, Any, 3, labels, 6);
    for name in &mut table.names {
        name.extend(rng.pick(&[None, None, Some(b'?'), Some(b'!')]));
    }
    table
}

fn ascii(name: &[u8]) -> &str {
    str::from_utf8(name).expect("ASCII")
}

/// Each in a set with all names, in any order, some of them twice.
fn all_by_name(rng: &Rng, table: &Table) -> Vec<u8> {
    let set = || {
        let turn = rng.below(table.labels());
        let mut names: Vec<&str> = table.names.iter().map(|name| ascii(name)).collect();
        names.rotate_left(turn);
        names.extend_from_within(..rng.below(2));
        names.join("|")
    };
    let [first, then] = [set(), set()];
    format!("EX[{first}] EU[{then};{}] T", rng.pick(&["*", "~*", &first])).into_bytes()
}

fn all(table: &Table) -> u64 {
    ((1 << table.labels()) - 1) << 1
}

fn some(rng: &Rng, table: &Table) -> u64 {
    1 << rng.between(1, table.labels())
}

fn near_the_ends(rng: &Rng, table: &Table) -> u64 {
    let (all, some) = (all(table), some(rng, table));
    rng.pick(&[all, 0, some, all & !some])
}

fn any_set(rng: &Rng, table: &Table) -> u64 {
    let [one, other, third] = [(); 3].map(|()| rng.draw() & all(table));
    rng.pick(&[one, one & other, one & other & third, some(rng, table)])
}

type Set = fn(&Rng, &Table) -> u64;

/// Of class 1.
fn head(rng: &Rng, table: &Table, set: Set) -> Node {
    match rng.pick(&[NEXT, UNTIL, UNTIL_THEN]) {
        UNTIL_THEN => (UNTIL_THEN, set(rng, table), set(rng, table)),
        kind => (kind, set(rng, table), 0),
    }
}

/// These heads over `T`, all of class 1; sometimes the root is `~`, or AX over `~`.
fn with_nodes(rng: &Rng, table: Table, mut nodes: Vec<Node>) -> Question {
    nodes.push((TRUE, 0, 0));
    match rng.below(4) {
        0 => nodes.insert(0, (NOT, 0, 0)),
        1 => drop(nodes.splice(..0, [(ALL, any_set(rng, &table), 0), (NOT, 0, 0)])),
        _ => {}
    }
    of_nodes(table, nodes)
}

/// Any formula of as many nodes lends its form; its nodes give way to these.
fn of_nodes(table: Table, nodes: Vec<Node>) -> Question {
    let mut formula = Formula::untils(nodes.len() - 1, table.labels());
    formula.nodes = nodes;
    Question::of(table, formula)
}

/// Nodes of these kinds, of class 1; `~` stands twice.
fn with_or(rng: &Rng, kinds: &[u8]) -> Question {
    let table = of_labels(rng, rng.between(1, 4));
    let mut nodes = Vec::new();
    grow(rng, &table, kinds, rng.pick(&[5, 9, 39]), &mut nodes);
    if nodes.len() < 40 && rng.one_in(4) {
        nodes.insert(0, (NOT, 0, 0));
    }
    of_nodes(table, nodes)
}

/// At most so many nodes.
fn grow(rng: &Rng, table: &Table, kinds: &[u8], most: usize, nodes: &mut Vec<Node>) {
    match rng.pick(kinds) {
        _ if most < 3 => nodes.push((TRUE, 0, 0)),
        OR => {
            nodes.push((OR, 0, 0));
            let left = rng.pick(&[1, most - 2, rng.between(1, most - 2)]);
            grow(rng, table, kinds, left, nodes);
            grow(rng, table, kinds, most - 1 - left, nodes);
        }
        NOT => {
            nodes.extend([(NOT, 0, 0); 2]);
            grow(rng, table, kinds, most - 2, nodes);
        }
        NEXT_SILENT => {
            nodes.push((NEXT_SILENT, 0, 0));
            grow(rng, table, kinds, most - 1, nodes);
        }
        _ => {
            nodes.push(head(rng, table, near_the_ends));
            grow(rng, table, kinds, most - 1, nodes);
        }
    }
}

/// The bytes of a set's names and what joins them, if the set is neither empty nor all.
fn length_of_names(table: &Table, set: u64) -> usize {
    let named = (1..=table.labels()).filter(|label| set >> label & 1 == 1);
    named.map(|label| table.names[label - 1].len() + 1).sum::<usize>() - 1
}

/// Its text has exactly so many bytes: heads with names, and `~` for what is left.
fn of_length(rng: &Rng, bytes: usize) -> Question {
    const NEARLY: usize = 20;
    loop {
        let table = of_labels(rng, 40);
        let mut nodes = vec![(TRUE, 0, 0)];
        let mut left = bytes - 1;
        while left > NEARLY && nodes.len() < 40 {
            let set = if left > 120 { any_set } else { some }(rng, &table);
            if set == 0 || set == all(&table) {
                continue;
            }
            let (kind, length) = match rng.one_in(3) {
                // `EX[` or `EU[`, then `] `.
                true => (rng.pick(&[NEXT, UNTIL]), length_of_names(&table, set) + 5),
                // `EU[`, then `;*] `.
                false => (UNTIL_THEN, length_of_names(&table, set) + 7),
            };
            if length <= left {
                nodes.insert(0, (kind, set, if kind == UNTIL_THEN { all(&table) } else { 0 }));
                left -= length;
            }
        }
        if nodes.len() + left <= 40 {
            nodes.splice(..0, std::iter::repeat_n((NOT, 0, 0), left));
            return of_nodes(table, nodes);
        }
    }
}

/// 39 untils of all labels but one, over the longest names.
fn longest(rng: &Rng) -> Question {
    let table = marks::largest(rng, Any);
    let nearly_all = || all(&table) & !some(rng, &table);
    let mut nodes: Vec<Node> = (1..40).map(|_| (UNTIL_THEN, nearly_all(), nearly_all())).collect();
    nodes.push((TRUE, 0, 0));
    of_nodes(table, nodes)
}
