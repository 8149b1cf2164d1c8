//! Prepared bytes as they are lent: whole, damaged where a field begins or ends and elsewhere, with a
//! slot twice, one byte short or long.

use super::bytes::{another_byte, random_bytes};
use super::kinds::{self, Kinds, Way, must, way};
use super::questions::Question;
use super::rng::Rng;
use super::{formulas, tables};
use crate::formula::MAX_NODES;
use crate::prepared::{
    self, FORMULA_LENGTH, NAME_SLOT, NAMES, NODE_SLOT, NODES, TABLE_LENGTH, TRANSITION_SLOT,
    TRANSITIONS,
};
use crate::reply::{Refusal, Reply};
use crate::table::{MAX_LABELS, MAX_TRANSITIONS, Table};
use crate::tally::{Expected, Kind, Outcome};

/// A byte of a prepared form, if this one has it.
pub struct Place<Of> {
    pub name: &'static str,
    pub at: fn(&mut Rng, &Of) -> Option<usize>,
}

const fn place<Of>(name: &'static str, at: fn(&mut Rng, &Of) -> Option<usize>) -> Place<Of> {
    Place { name, at }
}

/// False if nothing can be repeated.
type Repeat<Of> = fn(&mut Rng, &Of, &mut [u8]) -> bool;

/// A prepared form and its telling bytes.
pub struct Layout<Of: 'static> {
    part: &'static str,
    damaged: &'static str,
    length: &'static str,
    refusal: Refusal,
    bytes: fn(&Of) -> Vec<u8>,
    pub places: &'static [Place<Of>],
    /// What stands in one slot stands in another too, where that is refused and if there are two.
    repeat: Option<Repeat<Of>>,
    /// Anything else that no reading leaves.
    damage: fn(&mut Rng, &Of, &mut [u8]),
}

pub const TABLE: Layout<Table> = Layout {
    part: "table",
    damaged: "table damaged",
    length: "table's length",
    refusal: Refusal::PreparedTable,
    bytes: prepared::table_bytes,
    places: &TABLE_PLACES,
    repeat: Some(tables::repeat_name),
    damage: tables::damage_prepared,
};

/// The tables that are combined.
pub const FIRST: Layout<Table> = Layout {
    part: "first table",
    damaged: "first table damaged",
    length: "first table's length",
    ..TABLE
};

pub const SECOND: Layout<Table> = Layout {
    part: "second table",
    damaged: "second table damaged",
    length: "second table's length",
    ..TABLE
};

pub const FORMULA: Layout<Question> = Layout {
    part: "formula",
    damaged: "formula damaged",
    length: "formula's length",
    refusal: Refusal::PreparedFormula,
    bytes: |question| prepared::formula_bytes(&question.formula),
    places: &FORMULA_PLACES,
    repeat: None,
    damage: |rng, question, bytes| {
        formulas::damage_prepared(rng, &question.formula, question.table.labels(), bytes);
    },
};

const TABLE_PLACES: [Place<Table>; 29] = [
    place("states, low byte", |_, _| Some(0)),
    place("states, high byte", |_, _| Some(1)),
    place("labels", |_, _| Some(2)),
    place("transitions, low byte", |_, _| Some(3)),
    place("transitions, high byte", |_, _| Some(4)),
    place("start", |_, _| Some(5)),
    place("length of a name", |rng, table| Some(name(rng, table)?.0)),
    place("first byte of a name", |rng, table| Some(name(rng, table)?.0 + 1)),
    place("last byte of a name", |rng, table| {
        let (slot, length) = name(rng, table)?;
        Some(slot + length)
    }),
    place("byte behind a name", |rng, table| {
        let (slot, length) = name(rng, table)?;
        Some(slot + length + 1)
    }),
    place("last byte of a name's slot", |rng, table| Some(name(rng, table)?.0 + NAME_SLOT - 1)),
    place("first unused name slot, first byte", |_, table| {
        (table.labels() < MAX_LABELS).then_some(NAMES + table.labels() * NAME_SLOT)
    }),
    place("first unused name slot, last byte", |_, table| {
        (table.labels() < MAX_LABELS).then_some(NAMES + (table.labels() + 1) * NAME_SLOT - 1)
    }),
    place("some unused name slot, first byte", unused_name),
    place("some unused name slot, last byte", |rng, table| {
        Some(unused_name(rng, table)? + NAME_SLOT - 1)
    }),
    place("last name slot, first byte", |_, _| Some(TRANSITIONS - NAME_SLOT)),
    place("last name slot, last byte", |_, _| Some(TRANSITIONS - 1)),
    place("first transition's first byte", |_, _| Some(TRANSITIONS)),
    place("from of a transition", transition),
    place("label of a transition", |rng, table| Some(transition(rng, table)? + 1)),
    place("to of a transition", |rng, table| Some(transition(rng, table)? + 2)),
    place("last transition's last byte", |_, table| {
        let used = table.transitions.len();
        (used > 0).then_some(TRANSITIONS + used * TRANSITION_SLOT - 1)
    }),
    place("first unused transition's from", |_, table| unused_transition(table)),
    place("first unused transition's label", |_, table| Some(unused_transition(table)? + 1)),
    place("first unused transition's to", |_, table| Some(unused_transition(table)? + 2)),
    place("some unused transition", |rng, table| {
        let begin = unused_transition(table)?;
        Some(rng.between(begin, TABLE_LENGTH - 1))
    }),
    place("last slot's from", |_, _| Some(TABLE_LENGTH - 3)),
    place("last slot's label", |_, _| Some(TABLE_LENGTH - 2)),
    place("last byte", |_, _| Some(TABLE_LENGTH - 1)),
];

/// The first, the last or any of so many.
fn one_of(rng: &mut Rng, count: usize) -> Option<usize> {
    let last = count.checked_sub(1)?;
    let any = rng.below(count);
    Some(rng.pick(&[0, last, any]))
}

/// The slot of some name, and the name's length.
fn name(rng: &mut Rng, table: &Table) -> Option<(usize, usize)> {
    let label = one_of(rng, table.labels())?;
    Some((NAMES + label * NAME_SLOT, table.names[label].len()))
}

fn unused_name(rng: &mut Rng, table: &Table) -> Option<usize> {
    let unused = rng.below((MAX_LABELS - table.labels()).max(1));
    (table.labels() < MAX_LABELS).then_some(NAMES + (table.labels() + unused) * NAME_SLOT)
}

fn transition(rng: &mut Rng, table: &Table) -> Option<usize> {
    Some(TRANSITIONS + one_of(rng, table.transitions.len())? * TRANSITION_SLOT)
}

fn unused_transition(table: &Table) -> Option<usize> {
    let used = table.transitions.len();
    (used < MAX_TRANSITIONS).then_some(TRANSITIONS + used * TRANSITION_SLOT)
}

const FORMULA_PLACES: [Place<Question>; 13] = [
    place("node count", |_, _| Some(0)),
    place("kind of a node", node),
    place("first mask, first byte", |rng, question| Some(node(rng, question)? + 1)),
    place("first mask, last byte", |rng, question| Some(node(rng, question)? + 8)),
    place("second mask, first byte", |rng, question| Some(node(rng, question)? + 9)),
    place("second mask, last byte", |rng, question| Some(node(rng, question)? + 16)),
    place("first unused node, kind", |_, question| unused_node(question)),
    place("first unused node, first mask", |_, question| Some(unused_node(question)? + 1)),
    place("first unused node, last byte", |_, question| Some(unused_node(question)? + 16)),
    place("some unused node", |rng, question| {
        let begin = unused_node(question)?;
        Some(rng.between(begin, FORMULA_LENGTH - 1))
    }),
    place("last slot, kind", |_, _| Some(FORMULA_LENGTH - NODE_SLOT)),
    place("last byte but one", |_, _| Some(FORMULA_LENGTH - 2)),
    place("last byte", |_, _| Some(FORMULA_LENGTH - 1)),
];

fn node(rng: &mut Rng, question: &Question) -> Option<usize> {
    Some(NODES + one_of(rng, question.formula.nodes.len())? * NODE_SLOT)
}

fn unused_node(question: &Question) -> Option<usize> {
    let used = question.formula.nodes.len();
    (used < MAX_NODES).then_some(NODES + used * NODE_SLOT)
}

/// The lengths of buffers that must have so many bytes.
pub const LENGTHS: [Way<usize, usize>; 6] = [
    way("as needed", 17, &[0], |_, &needed| needed),
    way("one byte short", 2, &[14], |_, &needed| needed - 1),
    way("shorter", 1, &[14], |rng, &needed| rng.below(needed)),
    way("none", 1, &[14], |_, _| 0),
    way("one byte long", 2, &[0], |_, &needed| needed + 1),
    way("longer", 2, &[0], |rng, &needed| needed + rng.between(2, 200)),
];

const WHOLE: &str = "whole";
const ANYHOW: &str = "damaged anyhow";
const REPEATED: &str = "one slot twice";

/// One in ten is damaged at one of its places, some elsewhere, some have a slot twice, and one in eight
/// has any length.
pub fn lend<Of>(rng: &mut Rng, kinds: &mut Kinds, layout: &Layout<Of>, of: &Of) -> Vec<u8> {
    let mut bytes = (layout.bytes)(of);
    match rng.below(40) {
        0..4 => {
            let (name, at) = some_place(rng, layout, of);
            kinds.note(layout.damaged, name);
            bytes[at] = another_byte(rng, bytes[at]);
        }
        4 | 5 => {
            kinds.note(layout.part, ANYHOW);
            (layout.damage)(rng, of, &mut bytes);
        }
        _ => {
            let aside = &mut rng.aside(REPEATED);
            let repeat = layout.repeat.filter(|_| aside.one_in(25));
            let is_repeated = repeat.is_some_and(|repeat| repeat(aside, of, &mut bytes));
            kinds.note(layout.part, if is_repeated { REPEATED } else { WHOLE });
        }
    }
    if rng.one_in(8) {
        let length = kinds.make(rng, layout.length, &LENGTHS, &bytes.len());
        let behind = random_bytes(rng, length.saturating_sub(bytes.len()));
        bytes.truncate(length);
        bytes.extend_from_slice(&behind);
    }
    bytes
}

fn some_place<Of>(rng: &mut Rng, layout: &Layout<Of>, of: &Of) -> (&'static str, usize) {
    loop {
        let place = &layout.places[rng.below(layout.places.len())];
        if let Some(at) = (place.at)(rng, of) {
            return (place.name, at);
        }
    }
}

/// All that `lend` must have made.
pub fn expected<Of>(layout: &Layout<Of>) -> Vec<Expected> {
    let Reply { number, figure } = layout.refusal.into();
    let refused = |part, name| Expected {
        kind: Kind { part, name },
        outcomes: vec![Outcome { number, figure: Some(figure) }],
    };
    let mut expected = kinds::expected(layout.length, &LENGTHS);
    expected.push(must(layout.part, WHOLE, &[0]));
    expected.push(refused(layout.part, ANYHOW));
    expected.extend(layout.repeat.map(|_| refused(layout.part, REPEATED)));
    expected.extend(layout.places.iter().map(|place| refused(layout.damaged, place.name)));
    expected
}
