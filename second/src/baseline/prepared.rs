//! Refusals 14 and 10, and the views of prepared bytes.

use super::labels::SILENT_COLUMNS;
use crate::formula::MAX_NODES;
use crate::prepared::{
    FORMULA_LENGTH, NAME_SLOT, NAMES, NODE_SLOT, NODES, TABLE_LENGTH, TRANSITION_SLOT, TRANSITIONS,
};
use crate::reply::Refusal;
use crate::table::{MAX_LABELS, MAX_NAME, MAX_STATES, MAX_STEM, MAX_TRANSITIONS, is_name_byte};

pub struct Table<'a> {
    pub states: usize,
    pub labels: usize,
    pub start: usize,
    /// The used slots.
    pub names: &'a [[u8; NAME_SLOT]],
    pub transitions: &'a [[u8; TRANSITION_SLOT]],
}

/// Kinds as in docs/FORMATS.md. The silent step is the mask of the silent columns.
#[derive(Clone, Copy, Default)]
pub struct Node {
    pub kind: u8,
    pub first: u64,
    pub then: u64,
    /// The arm that is not the next node.
    pub right: u8,
    pub class: u8,
}

pub const TRUE: u8 = 1;
pub const NOT: u8 = 2;
pub const OR: u8 = 3;
pub const NEXT_SILENT: u8 = 4;
pub const NEXT: u8 = 5;
pub const ALL_NEXT_SILENT: u8 = 6;
pub const ALL_NEXT: u8 = 7;
pub const UNTIL: u8 = 8;
pub const UNTIL_THEN: u8 = 9;

pub struct Formula {
    pub count: usize,
    pub nodes: [Node; MAX_NODES],
}

impl Formula {
    pub fn nodes(&self) -> &[Node] {
        &self.nodes[..self.count]
    }
}

pub fn question<'a>(table: &'a [u8], formula: &[u8]) -> Result<(Table<'a>, Formula), Refusal> {
    let table = table.first_chunk().ok_or(Refusal::ShortBuffer(TABLE_LENGTH))?;
    let formula = formula.first_chunk().ok_or(Refusal::ShortBuffer(FORMULA_LENGTH))?;
    let table = checked_table(table).ok_or(Refusal::PreparedTable)?;
    let formula = checked_formula(formula, table.labels).ok_or(Refusal::PreparedFormula)?;
    Ok((table, formula))
}

/// The same, if what is lent beside them has so many bytes.
pub fn question_with<'a>(
    table: &'a [u8],
    formula: &[u8],
    lent: &[u8],
    length: usize,
) -> Result<(Table<'a>, Formula), Refusal> {
    let are_long = table.len() >= TABLE_LENGTH && formula.len() >= FORMULA_LENGTH;
    if are_long && lent.len() < length {
        return Err(Refusal::ShortBuffer(length));
    }
    question(table, formula)
}

pub fn checked_table(bytes: &[u8; TABLE_LENGTH]) -> Option<Table<'_>> {
    let states = u16::from_le_bytes([bytes[0], bytes[1]]) as usize;
    let labels = bytes[2] as usize;
    let transitions = u16::from_le_bytes([bytes[3], bytes[4]]) as usize;
    let start = bytes[5] as usize;
    let counted = (1..=MAX_STATES).contains(&states)
        && labels <= MAX_LABELS
        && transitions <= MAX_TRANSITIONS
        && start < states;
    if !counted {
        return None;
    }
    let (names, no_names) = bytes[NAMES..TRANSITIONS].split_at(labels * NAME_SLOT);
    let (steps, no_steps) = bytes[TRANSITIONS..].split_at(transitions * TRANSITION_SLOT);
    let table = Table {
        states,
        labels,
        start,
        names: names.as_chunks().0,
        transitions: steps.as_chunks().0,
    };
    let accepted = is_zero(no_names)
        && is_zero(no_steps)
        && are_names(table.names)
        && are_transitions(table.transitions, states, labels);
    accepted.then_some(table)
}

fn is_zero(bytes: &[u8]) -> bool {
    bytes.iter().fold(0, |any, byte| any | byte) == 0
}

fn are_names(slots: &[[u8; NAME_SLOT]]) -> bool {
    let mut known = [0u128; MAX_LABELS];
    slots.iter().enumerate().all(|(label, slot)| {
        let name = u128::from_le_bytes(*slot);
        let (length, bytes) = (slot[0] as usize, &slot[1..]);
        if !(1..=MAX_NAME).contains(&length) {
            return false;
        }
        let stem = length - usize::from(matches!(bytes[length - 1], b'?' | b'!'));
        let is_name = stem <= MAX_STEM
            && bytes[0].is_ascii_lowercase()
            && bytes[..stem].iter().all(|&byte| is_name_byte(byte))
            && is_zero(&bytes[length..])
            && !known[..label].contains(&name);
        known[label] = name;
        is_name
    })
}

fn are_transitions(slots: &[[u8; TRANSITION_SLOT]], states: usize, labels: usize) -> bool {
    let mut least = 0;
    slots.iter().all(|&[from, label, to]| {
        let key = u32::from(from) << 16 | u32::from(label) << 8 | u32::from(to);
        let in_range =
            (from as usize) < states && label as usize <= labels && (to as usize) < states;
        let above = key >= least;
        least = key + 1;
        in_range && above
    })
}

pub fn checked_formula(bytes: &[u8; FORMULA_LENGTH], labels: usize) -> Option<Formula> {
    let count = bytes[0] as usize;
    if !(1..=MAX_NODES).contains(&count) {
        return None;
    }
    let (used, unused) = bytes[NODES..].split_at(count * NODE_SLOT);
    let mut formula = Formula { count, nodes: [Node::default(); MAX_NODES] };
    for (node, slot) in formula.nodes.iter_mut().zip(used.as_chunks().0) {
        *node = checked_node(slot, labels)?;
    }
    let accepted = is_zero(unused) && complete(&mut formula.nodes[..count]) == Ok(true);
    accepted.then_some(formula)
}

fn checked_node(slot: &[u8; NODE_SLOT], labels: usize) -> Option<Node> {
    let [kind, masks @ ..] = slot;
    let mask = |half: usize| u64::from_le_bytes(masks.as_chunks().0[half]);
    let (first, then) = (mask(0), mask(1));
    let set = ((1 << labels) - 1) << 1;
    let free = match *kind {
        NEXT | ALL_NEXT | UNTIL => [set, 0],
        UNTIL_THEN => [set; 2],
        TRUE | NOT | OR | NEXT_SILENT | ALL_NEXT_SILENT => [0; 2],
        _ => return None,
    };
    let silent = matches!(*kind, NEXT_SILENT | ALL_NEXT_SILENT);
    let node = Node {
        kind: *kind,
        first: if silent { SILENT_COLUMNS } else { first },
        then,
        ..Node::default()
    };
    (first & !free[0] == 0 && then & !free[1] == 0).then_some(node)
}

/// Finds right arms and classes, from the last node to the first: whether the nodes are one whole
/// formula, or the first node met that has no class.
pub fn complete(nodes: &mut [Node]) -> Result<bool, usize> {
    const BEYOND: usize = MAX_NODES + 1;
    // By node: the first one behind the whole of it.
    let mut behind = [BEYOND; MAX_NODES + 2];
    for number in (0..nodes.len()).rev() {
        behind[number] = match nodes[number].kind {
            TRUE => number + 1,
            OR => {
                nodes[number].right = behind[number + 1] as u8;
                behind[behind[number + 1]]
            }
            _ => behind[number + 1],
        };
        if behind[number] == BEYOND {
            return Ok(false);
        }
        nodes[number].class = class(nodes, number).ok_or(number)?;
    }
    Ok(behind[0] == nodes.len())
}

/// Of a node whose arms have theirs.
fn class(nodes: &[Node], number: usize) -> Option<u8> {
    let node = &nodes[number];
    let arm = nodes.get(number + 1);
    match node.kind {
        TRUE => Some(1),
        NOT => Some(3 - arm?.class),
        ALL_NEXT_SILENT | ALL_NEXT => (arm?.class == 2 || arm?.kind == TRUE).then_some(2),
        OR => (arm?.class == 1 && nodes[node.right as usize].class == 1).then_some(1),
        _ => (arm?.class == 1).then_some(1),
    }
}
