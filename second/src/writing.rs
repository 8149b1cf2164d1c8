//! A formula written back: its text in the base notation, by the levels of the grammar.

use crate::formula::{Condition, Formula, Node, Set};
use crate::table::Table;

/// How tightly a text holds together, the loosest first.
#[derive(Clone, Copy, PartialEq, Eq, PartialOrd, Ord)]
enum Level {
    Disjunction,
    Term,
}

impl Level {
    fn of(node: Node) -> Level {
        match node {
            Node::Or(..) => Level::Disjunction,
            _ => Level::Term,
        }
    }
}

/// Of any length.
pub fn text(table: &Table, formula: &Formula) -> Vec<u8> {
    let mut writing = Writing { table, formula, text: Vec::new() };
    writing.node(0, Level::Disjunction);
    writing.text
}

struct Writing<'a> {
    table: &'a Table,
    formula: &'a Formula,
    text: Vec<u8>,
}

impl Writing<'_> {
    fn put(&mut self, token: &str) {
        self.text.extend_from_slice(token.as_bytes());
    }

    /// Where a text of this level is wanted, a looser one stands in round brackets.
    fn node(&mut self, number: usize, wanted: Level) {
        let node = self.formula.nodes[number];
        if Level::of(node) >= wanted {
            return self.bare(node);
        }
        self.put("(");
        self.bare(node);
        self.put(")");
    }

    fn bare(&mut self, node: Node) {
        match node {
            Node::True => self.put("T"),
            Node::Not(arm) => {
                self.put("~");
                self.node(arm, Level::Term);
            }
            // `|` groups from the left.
            Node::Or(left, right) => {
                self.node(left, Level::Disjunction);
                self.put("|");
                self.node(right, Level::Term);
            }
            Node::Next(condition, arm) => self.modal("EX", &[condition], arm),
            Node::AllNext(condition, arm) => self.modal("AX", &[condition], arm),
            Node::Until(set, arm) => self.modal("EU", &[Condition::Among(set)], arm),
            Node::UntilThen(set, then, arm) => {
                self.modal("EU", &[set, then].map(Condition::Among), arm);
            }
        }
    }

    fn modal(&mut self, keyword: &str, conditions: &[Condition], arm: usize) {
        let conditions: Vec<Vec<u8>> =
            conditions.iter().map(|condition| condition_text(self.table, *condition)).collect();
        self.put(keyword);
        self.put("[");
        self.text.extend(conditions.join(&b';'));
        self.put("] ");
        self.node(arm, Level::Term);
    }
}

fn condition_text(table: &Table, condition: Condition) -> Vec<u8> {
    match condition {
        Condition::Silent => b".".to_vec(),
        Condition::Among(set) => set_text(table, set),
    }
}

/// 02: "sets as the label names by rising number joined by `|`, `*` for all labels, `~*` for the
/// empty set. If there are no labels, `*` is written."
fn set_text(table: &Table, set: Set) -> Vec<u8> {
    let labels = table.labels();
    if set.complement(labels) == Set::EMPTY {
        return b"*".to_vec();
    }
    if set == Set::EMPTY {
        return b"~*".to_vec();
    }
    let numbered = table.names.iter().zip(1..);
    let names = numbered.filter(|(_, label)| set.has(*label)).map(|(name, _)| name.as_slice());
    names.collect::<Vec<&[u8]>>().join(&b'|')
}
