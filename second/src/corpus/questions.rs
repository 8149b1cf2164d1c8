//! Prepared tables and formulas for the verdict, building and words: by which states have exits and
//! by class, at the limits, damaged, short and longer.

use super::damage;
use super::formulas::{FORMULA_LENGTH, Formula};
use super::rng::Rng;
use super::tables::Exits::{self, All, Any, Lacking};
use super::tables::{NAMES, STEPS, TABLE_LENGTH, Table};

pub struct Question {
    pub table: Table,
    pub formula: Formula,
    /// What is lent for them.
    pub table_bytes: Vec<u8>,
    pub formula_bytes: Vec<u8>,
}

/// A kind of question, with its counts for the verdict, building and words.
pub struct Asked {
    pub name: &'static str,
    pub counts: [u64; 3],
    pub make: fn(&Rng) -> Question,
}

const fn asked(name: &'static str, counts: [u64; 3], make: fn(&Rng) -> Question) -> Asked {
    Asked { name, counts, make }
}

pub const ASKED: [Asked; 35] = [
    asked("small-with-exits-class-1", [2_550, 1_800, 700], |rng| small(rng, All, 1)),
    asked("small-with-exits-class-2", [2_500, 1_800, 700], |rng| small(rng, All, 2)),
    asked("small-some-without-class-1", [2_500, 1_800, 700], |rng| small(rng, Lacking, 1)),
    asked("small-some-without-class-2", [2_500, 1_800, 700], |rng| small(rng, Lacking, 2)),
    asked("medium-with-exits", [900, 500, 400], |rng| either(rng, Table::medium(rng, All))),
    asked("medium-some-without", [900, 500, 400], |rng| either(rng, Table::medium(rng, Lacking))),
    asked("m-with-exits", [500, 500, 400], |rng| either(rng, Table::m(rng, All))),
    asked("m-some-without", [500, 500, 400], |rng| either(rng, Table::m(rng, Lacking))),
    asked("silent-loops", [600, 600, 400], |rng| either(rng, Table::silent_loops(rng))),
    asked("no-labels-with-exits", [400, 400, 300], |rng| {
        either(rng, Table::without_labels(rng, All))
    }),
    asked("no-labels-some-without", [400, 400, 300], |rng| {
        either(rng, Table::without_labels(rng, Lacking))
    }),
    asked("no-transitions", [300, 300, 200], |rng| {
        either(rng, Table::drawn(rng, Any, rng.between(1, 6), rng.between(1, 4), 0))
    }),
    asked("40-nodes-with-exits", [300, 200, 200], |rng| most_nodes(rng, All)),
    asked("40-nodes-some-without", [300, 200, 200], |rng| most_nodes(rng, Lacking)),
    asked("largest-with-exits", [120, 40, 60], |rng| either(rng, Table::largest(rng, All))),
    asked("largest-some-without", [120, 40, 60], |rng| either(rng, Table::largest(rng, Lacking))),
    asked("ring", [60, 30, 40], |rng| either(rng, Table::ring(rng, 256, rng.below(20)))),
    asked("table-longer", [400, 300, 200], |rng| {
        small(rng, All, 1).resized(rng, damage::longer, |_, length| length)
    }),
    asked("formula-longer", [400, 300, 200], |rng| {
        small(rng, All, 2).resized(rng, |_, length| length, damage::longer)
    }),
    asked("table-short", [250, 250, 200], |rng| {
        small(rng, All, 1).resized(rng, damage::shorter, damage::longer)
    }),
    asked("formula-short", [250, 250, 200], |rng| {
        small(rng, All, 2).resized(rng, |_, length| length, damage::shorter)
    }),
    asked("both-short", [100, 100, 100], |rng| {
        small(rng, All, 2).resized(rng, damage::shorter, damage::shorter)
    }),
    asked("table-head-damaged", [300, 250, 200], |rng| table_damaged(rng, head)),
    asked("table-names-damaged", [300, 250, 200], |rng| table_damaged(rng, name)),
    asked("table-transitions-damaged", [300, 250, 200], |rng| table_damaged(rng, transition)),
    asked("table-unused-damaged", [200, 200, 150], |rng| table_damaged(rng, unused_of_table)),
    asked("table-boundary-bytes", [200, 200, 150], |rng| {
        table_damaged(rng, |rng, _, bytes| flip(rng, bytes, &[0, 1, 5, 6, 645, 646, 3_716, 3_717]))
    }),
    asked("table-random", [50, 50, 50], |rng| {
        table_damaged(rng, |rng, _, bytes| {
            bytes.copy_from_slice(&damage::bytes(rng, TABLE_LENGTH, damage::any_byte));
        })
    }),
    asked("formula-count-damaged", [250, 250, 200], |rng| {
        formula_damaged(rng, |rng, _, bytes| {
            let count = bytes[0];
            bytes[0] = rng.pick(&[0, 1, 39, 40, 41, 255, count + 1, count - 1]);
        })
    }),
    asked("formula-kinds-damaged", [300, 250, 200], |rng| {
        formula_damaged(rng, |rng, nodes, bytes| {
            bytes[1 + 17 * rng.below(nodes)] = rng.below(11) as u8;
        })
    }),
    asked("formula-masks-damaged", [300, 250, 200], |rng| formula_damaged(rng, mask)),
    asked("formula-unused-damaged", [200, 200, 150], |rng| {
        formula_damaged(rng, |rng, nodes, bytes| {
            if nodes < 40 {
                bytes[rng.between(1 + 17 * nodes, 680)] ^= 1 << rng.below(8);
            }
        })
    }),
    asked("formula-boundary-bytes", [200, 200, 150], |rng| {
        formula_damaged(rng, |rng, _, bytes| flip(rng, bytes, &[0, 1, 17, 18, 679, 680]))
    }),
    asked("formula-without-class", [250, 200, 150], |rng| {
        let table = Table::small(rng, All);
        let formula = Formula::without_class(rng, table.labels());
        Question::of(table, formula)
    }),
    asked("formula-of-more-labels", [300, 250, 200], |rng| {
        let table = Table::small(rng, All);
        let formula = Formula::drawn(rng, 1, rng.between(2, 5), table.labels() + rng.below(4));
        Question::of(table, formula)
    }),
];

impl Question {
    pub fn of(table: Table, formula: Formula) -> Question {
        let (table_bytes, formula_bytes) = (table.bytes(), formula.bytes());
        Question { table, formula, table_bytes, formula_bytes }
    }

    pub fn resized(
        self,
        rng: &Rng,
        table_length: fn(&Rng, usize) -> usize,
        formula_length: fn(&Rng, usize) -> usize,
    ) -> Question {
        let table_bytes = damage::resized(rng, self.table_bytes, table_length(rng, TABLE_LENGTH));
        let length = formula_length(rng, FORMULA_LENGTH);
        let formula_bytes = damage::resized(rng, self.formula_bytes, length);
        Question { table_bytes, formula_bytes, ..self }
    }
}

pub fn of_class(rng: &Rng, table: Table, class: u8) -> Question {
    let formula = Formula::small(rng, class, table.labels());
    Question::of(table, formula)
}

pub fn small(rng: &Rng, exits: Exits, class: u8) -> Question {
    of_class(rng, Table::small(rng, exits), class)
}

/// Of either class.
pub fn either(rng: &Rng, table: Table) -> Question {
    of_class(rng, table, rng.between(1, 2) as u8)
}

fn most_nodes(rng: &Rng, exits: Exits) -> Question {
    let table = Table::small(rng, exits);
    let formula = Formula::drawn(rng, rng.between(1, 2) as u8, 40, table.labels());
    Question::of(table, formula)
}

fn table_damaged(rng: &Rng, damage: fn(&Rng, &Table, &mut [u8])) -> Question {
    let mut question = either(rng, Table::small(rng, All));
    damage(rng, &question.table, &mut question.table_bytes);
    question
}

fn formula_damaged(rng: &Rng, damage: fn(&Rng, usize, &mut [u8])) -> Question {
    let mut question = either(rng, Table::small(rng, All));
    damage(rng, question.formula.nodes.len(), &mut question.formula_bytes);
    question
}

/// The prepared bytes of a table, damaged in any part.
pub fn damaged_table(rng: &Rng, table: &Table) -> Vec<u8> {
    let mut bytes = table.bytes();
    rng.pick(&[head, name, transition, unused_of_table])(rng, table, &mut bytes);
    bytes
}

fn flip(rng: &Rng, bytes: &mut [u8], places: &[usize]) {
    bytes[rng.pick(places)] ^= rng.between(1, 255) as u8;
}

fn head(rng: &Rng, _: &Table, bytes: &mut [u8]) {
    let at = rng.below(NAMES);
    let (up, down) = (bytes[at].wrapping_add(1), bytes[at].wrapping_sub(1));
    bytes[at] = rng.pick(&[up, up, down, down, 0, 1, 2, 4, 40, 41, 255]);
}

fn name(rng: &Rng, table: &Table, bytes: &mut [u8]) {
    let [slot, other] = [(); 2].map(|()| NAMES + 16 * rng.below(table.labels()));
    match rng.below(4) {
        0 => bytes.copy_within(other..other + 16, slot),
        1 => bytes[slot] = rng.pick(&[0, 1, 2, 11, 12, 13, 14, 15, 16, 255]),
        2 => bytes[slot + rng.between(1, 15)] = damage::base_byte(rng),
        _ => bytes[slot + rng.between(1, 15)] = damage::any_byte(rng),
    }
}

fn transition(rng: &Rng, table: &Table, bytes: &mut [u8]) {
    let [slot, other] = [(); 2].map(|()| STEPS + 3 * rng.below(table.steps.len().max(1)));
    match rng.below(3) {
        0 => bytes.copy_within(other..other + 3, slot),
        1 => (0..3).for_each(|at| bytes.swap(slot + at, other + at)),
        _ => bytes[slot + rng.below(3)] = rng.pick(&[0, 1, 2, 3, 4, 5, 6, 7, 40, 41, 255]),
    }
}

fn unused_of_table(rng: &Rng, table: &Table, bytes: &mut [u8]) {
    let names = rng.between(NAMES + 16 * table.labels(), STEPS - 1);
    let transitions = rng.between(STEPS + 3 * table.steps.len(), TABLE_LENGTH - 1);
    bytes[rng.pick(&[names, transitions])] ^= 1 << rng.below(8);
}

fn mask(rng: &Rng, nodes: usize, bytes: &mut [u8]) {
    let label = rng.pick(&[0, 1, 2, 3, 4, 5, 6, 40, 41, 63]);
    bytes[1 + 17 * rng.below(nodes) + rng.pick(&[1, 9]) + label / 8] ^= 1 << (label % 8);
}
