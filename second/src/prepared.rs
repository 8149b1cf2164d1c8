//! The bytes of prepared tables and formulas (docs/FORMATS.md), and which of them 10 accepts.

use crate::formula::{Condition, Formula, MAX_NODES, Node, Set};
use crate::table::{MAX_LABELS, MAX_TRANSITIONS, Step, Table};

pub const TABLE_LENGTH: usize = 3_718;
pub const FORMULA_LENGTH: usize = 681;

pub const NAMES: usize = 6;
pub const NAME_SLOT: usize = 16;
pub const TRANSITIONS: usize = NAMES + MAX_LABELS * NAME_SLOT;
pub const TRANSITION_SLOT: usize = 3;
pub const NODES: usize = 1;
pub const NODE_SLOT: usize = 17;

const _: () = assert!(TABLE_LENGTH == TRANSITIONS + MAX_TRANSITIONS * TRANSITION_SLOT);
const _: () = assert!(FORMULA_LENGTH == NODES + MAX_NODES * NODE_SLOT);

pub fn table_bytes(table: &Table) -> Vec<u8> {
    let mut bytes = vec![0; TABLE_LENGTH];
    bytes[0..2].copy_from_slice(&(table.states as u16).to_le_bytes());
    bytes[2] = table.labels() as u8;
    bytes[3..5].copy_from_slice(&(table.transitions.len() as u16).to_le_bytes());
    bytes[5] = table.start;
    for (slot, name) in bytes[NAMES..].chunks_mut(NAME_SLOT).zip(&table.names) {
        slot[0] = name.len() as u8;
        slot[1..=name.len()].copy_from_slice(name);
    }
    let slots = bytes[TRANSITIONS..].chunks_mut(TRANSITION_SLOT);
    for (slot, step) in slots.zip(&table.transitions) {
        slot.copy_from_slice(&[step.from, step.label, step.to]);
    }
    bytes
}

/// The table that some accepted reading leaves as these bytes.
///
/// 01: "prepared table bytes that no accepted reading leaves". A table has one text, so the one
/// text to try is that of the table which the fields spell.
pub fn table_of(bytes: &[u8]) -> Option<Table> {
    let bytes = &bytes[..TABLE_LENGTH];
    let table = Table::read(&spelled_table(bytes)?.text()).ok()?;
    (table_bytes(&table) == bytes).then_some(table)
}

fn spelled_table(bytes: &[u8]) -> Option<Table> {
    let (labels, transitions) = (bytes[2], u16::from_le_bytes([bytes[3], bytes[4]]));
    let name = |slot: &[u8]| Some(slot.get(1..=slot[0] as usize)?.to_vec());
    let names = bytes[NAMES..TRANSITIONS].chunks(NAME_SLOT);
    let steps = bytes[TRANSITIONS..].chunks(TRANSITION_SLOT);
    let step = |slot: &[u8]| Step { from: slot[0], label: slot[1], to: slot[2] };
    Some(Table {
        states: u16::from_le_bytes([bytes[0], bytes[1]]) as usize,
        start: bytes[5],
        names: names.take(labels as usize).map(name).collect::<Option<_>>()?,
        transitions: steps.take(transitions as usize).map(step).collect(),
    })
}

pub fn formula_bytes(formula: &Formula) -> Vec<u8> {
    let mut bytes = vec![0; FORMULA_LENGTH];
    bytes[0] = formula.nodes.len() as u8;
    for (slot, node) in bytes[NODES..].chunks_mut(NODE_SLOT).zip(&formula.nodes) {
        let [first, second] = node.sets();
        slot[0] = kind(*node);
        slot[1..9].copy_from_slice(&first.0.to_le_bytes());
        slot[9..17].copy_from_slice(&second.0.to_le_bytes());
    }
    bytes
}

fn kind(node: Node) -> u8 {
    match node {
        Node::True => 1,
        Node::Not(_) => 2,
        Node::Or(..) => 3,
        Node::Next(Condition::Silent, _) => 4,
        Node::Next(Condition::Among(_), _) => 5,
        Node::AllNext(Condition::Silent, _) => 6,
        Node::AllNext(Condition::Among(_), _) => 7,
        Node::Until(..) => 8,
        Node::UntilThen(..) => 9,
    }
}

/// The formula whose one form these bytes are, if each node has a class and the sets are within
/// so many labels.
pub fn formula_of(bytes: &[u8], labels: usize) -> Option<Formula> {
    let bytes = &bytes[..FORMULA_LENGTH];
    let formula = spelled_formula(bytes)?;
    let within = |node: &Node| node.sets().iter().all(|set| set.is_within(labels));
    let accepted = formula_bytes(&formula) == bytes
        && formula.nodes.iter().all(within)
        && formula.classes().iter().all(Option::is_some);
    accepted.then_some(formula)
}

/// From the last node to the first: the formulas that stand complete behind a node are its arms,
/// the nearest one the left.
fn spelled_formula(bytes: &[u8]) -> Option<Formula> {
    let slots = bytes[NODES..].chunks(NODE_SLOT);
    let slots: Vec<&[u8]> = slots.take(bytes[0] as usize).collect();
    let mut nodes = vec![Node::True; slots.len()];
    let mut complete: Vec<usize> = Vec::new();
    for (number, slot) in slots.iter().enumerate().rev() {
        nodes[number] = spelled_node(slot, &mut complete)?;
        complete.push(number);
    }
    (complete == [0]).then_some(Formula { nodes })
}

fn spelled_node(slot: &[u8], complete: &mut Vec<usize>) -> Option<Node> {
    let mask = |at: usize| u64::from_le_bytes(slot[at..at + 8].try_into().expect("eight bytes"));
    let (first, second) = (Set(mask(1)), Set(mask(9)));
    let mut arm = || complete.pop();
    Some(match slot[0] {
        1 => Node::True,
        2 => Node::Not(arm()?),
        3 => Node::Or(arm()?, arm()?),
        4 => Node::Next(Condition::Silent, arm()?),
        5 => Node::Next(Condition::Among(first), arm()?),
        6 => Node::AllNext(Condition::Silent, arm()?),
        7 => Node::AllNext(Condition::Among(first), arm()?),
        8 => Node::Until(first, arm()?),
        9 => Node::UntilThen(first, second, arm()?),
        _ => return None,
    })
}
