//! Questions for a formula that is written back: by the length of its text, by its sets, by where `|`
//! stands, and as texts are read.

use super::formula_texts;
use super::formulas;
use super::kinds::{Kinds, Way, way};
use super::questions::Question;
use super::rng::Rng;
use super::tables::{self, Size, longest_table, with_counts};
use crate::formula::{Class, Condition, Formula, MAX_BYTES, MAX_NODES, Node, Set};
use crate::table::{MAX_LABELS, Table};
use crate::writing;

pub const QUESTIONS: [Way<(), Question>; 10] = [
    way("of 511 bytes", 2, &[0], |rng, ()| of_length(rng, MAX_BYTES - 1)),
    way("of 512 bytes", 2, &[0], |rng, ()| of_length(rng, MAX_BYTES)),
    way("of 513 bytes", 2, &[15], |rng, ()| of_length(rng, MAX_BYTES + 1)),
    way("of over 40,000 bytes", 1, &[15], |rng, ()| longest(rng)),
    way("of many nodes over many labels", 2, &[0, 15], |rng, ()| {
        let table = of_labels(rng, 20, MAX_LABELS);
        let nodes = rng.between(10, MAX_NODES);
        of_nodes(rng, table, nodes)
    }),
    way("over no labels", 2, &[0], |rng, ()| {
        let table = of_labels(rng, 0, 0);
        let nodes = formulas::node_count(rng);
        of_nodes(rng, table, nodes)
    }),
    way("over one label", 3, &[0], |rng, ()| {
        let table = of_labels(rng, 1, 1);
        let nodes = formulas::node_count(rng);
        of_nodes(rng, table, nodes)
    }),
    way("of all labels and none, or nearly", 6, &[0], |rng, ()| {
        let table = of_labels(rng, 1, 6);
        let heads = rng.between(1, 6);
        let formula = headed(rng, &table, heads, near_the_ends);
        Question { table, formula }
    }),
    way("with `|` at every place", 6, &[0], |rng, ()| {
        let table = of_labels(rng, 0, 4);
        let most = rng.pick(&[7, 15, MAX_NODES]);
        let nodes = rng.between(3, most);
        Question { formula: with_or(rng, nodes, &table), table }
    }),
    way("read from a text", 10, &[0], |rng, ()| read(rng)),
];

/// Tables with a line to be read and written back.
pub const LINES: [Way<(), (Table, Vec<u8>)>; 2] = [
    way("of all labels by name", 1, &[0], |rng, ()| all_by_name(rng)),
    way("longer when written back", 1, &[15], |rng, ()| longer_when_written(rng)),
];

fn of_labels(rng: &mut Rng, least: usize, most: usize) -> Table {
    let labels = rng.between(least, most);
    with_counts(rng, &mut Kinds::default(), 3, labels, 6)
}

fn of_nodes(rng: &mut Rng, table: Table, nodes: usize) -> Question {
    let class = formulas::class(rng, nodes);
    Question { formula: formulas::formula(rng, Some(class), nodes, &table), table }
}

/// Some text over some table that is accepted.
fn read(rng: &mut Rng) -> Question {
    let table = tables::table(rng, &mut Kinds::default(), Size::Small);
    loop {
        let text = formula_texts::text(rng, &table);
        if let Ok(formula) = Formula::read(&table, &text) {
            return Question { table, formula };
        }
    }
}

/// All labels, none, or next to that.
fn near_the_ends(rng: &mut Rng, labels: usize) -> Set {
    let some = Set::of(rng.between(1, labels) as u8);
    let all = Set::all(labels);
    rng.pick(&[all, Set::EMPTY, some, some.complement(labels)])
}

/// Any, of few labels or of many.
fn any_set(rng: &mut Rng, labels: usize) -> Set {
    let [one, other, third] = [(); 3].map(|()| Set(rng.draw() & Set::all(labels).0));
    let some = Set::of(rng.between(1, labels) as u8);
    rng.pick(&[one, Set(one.0 & other.0), Set(one.0 & other.0 & third.0), some, some])
}

type AnySet = fn(&mut Rng, usize) -> Set;

/// This node over the whole formula.
fn over(head: fn(usize) -> Node, formula: &Formula) -> Formula {
    with_head(head(1), formula)
}

/// A node whose arm is 1, over the whole formula.
fn with_head(head: Node, formula: &Formula) -> Formula {
    let below = formula.nodes.iter().map(|node| node.with_arms(|arm| arm + 1));
    Formula { nodes: std::iter::once(head).chain(below).collect() }
}

/// EX, AX or EU over the whole formula, by its class.
fn with_sets(rng: &mut Rng, table: &Table, formula: &Formula, set: AnySet) -> Formula {
    let [first, then] = [(); 2].map(|()| set(rng, table.labels()));
    let condition = if rng.one_in(6) { Condition::Silent } else { Condition::Among(first) };
    let witnessed =
        [Node::Next(condition, 1), Node::Until(first, 1), Node::UntilThen(first, then, 1)];
    let head = match formula.root_class() {
        Class::Witnesses => rng.pick(&witnessed),
        Class::Counterexamples => Node::AllNext(condition, 1),
    };
    with_head(head, formula)
}

/// So many heads, some below `~`.
fn headed(rng: &mut Rng, table: &Table, heads: usize, set: AnySet) -> Formula {
    let mut formula = Formula { nodes: vec![Node::True] };
    for _ in 0..heads {
        if rng.one_in(4) {
            formula = over(Node::Not, &formula);
        }
        formula = with_sets(rng, table, &formula, set);
    }
    formula
}

/// Its text has exactly so many bytes: heads over a small formula, and `~` for what is left.
pub fn of_length(rng: &mut Rng, bytes: usize) -> Question {
    let table = of_labels(rng, 8, MAX_LABELS);
    loop {
        let nodes = rng.between(1, 12);
        let small = of_nodes(rng, table.clone(), nodes);
        if let Some(formula) = grown_to(rng, &table, small.formula, bytes) {
            return Question { table, formula };
        }
    }
}

fn grown_to(rng: &mut Rng, table: &Table, mut formula: Formula, bytes: usize) -> Option<Formula> {
    const NEARLY: usize = 12;
    let length = |formula: &Formula| writing::text(table, formula).len();
    for _ in 0..200 {
        if length(&formula) + NEARLY >= bytes {
            break;
        }
        let longer = with_sets(rng, table, &formula, any_set);
        if length(&longer) <= bytes {
            formula = longer;
        }
    }
    while length(&formula) < bytes && formula.nodes.len() < MAX_NODES {
        formula = over(Node::Not, &formula);
    }
    (length(&formula) == bytes && formula.nodes.len() <= MAX_NODES).then_some(formula)
}

/// 39 untils of all labels but one or two, over the longest names.
pub fn longest(rng: &mut Rng) -> Question {
    let table = longest_table(rng);
    let nearly_all = |rng: &mut Rng| {
        let [one, other] = [(); 2].map(|()| Set::of(rng.between(1, MAX_LABELS) as u8));
        rng.pick(&[one, one.union(other)]).complement(MAX_LABELS)
    };
    let until = |arm| Node::UntilThen(nearly_all(rng), nearly_all(rng), arm);
    let nodes = (1..MAX_NODES).map(until).chain([Node::True]).collect();
    Question { formula: Formula { nodes }, table }
}

/// Each set has every name, in any order, one of them twice.
fn all_by_name(rng: &mut Rng) -> (Table, Vec<u8>) {
    let table = of_labels(rng, 1, 10);
    let mut names = table.names.clone();
    names.push(rng.pick(&table.names.iter().collect::<Vec<_>>()).clone());
    let mut set = || {
        rng.shuffle(&mut names);
        names.join(&b'|')
    };
    let [first, then, last] = [set(), set(), set()];
    let parts: [&[u8]; 7] = [b"EX[", &first, b"]EU[", &then, b";", &last, b"]T"];
    let line = parts.concat();
    (table, line)
}

/// A line in 512 bytes whose text has more: sets of many labels, each typed as a complement.
pub fn longer_when_written(rng: &mut Rng) -> (Table, Vec<u8>) {
    loop {
        let table = of_labels(rng, 10, MAX_LABELS);
        let head = |_| format!("EU[~{}] ", table.names[rng.below(table.labels())].escape_ascii());
        let heads: String = (0..8).map(head).collect();
        let line = [heads.as_bytes(), b"T"].concat();
        let formula = Formula::read(&table, &line).expect("a formula");
        if writing::text(&table, &formula).len() > MAX_BYTES {
            return (table, line);
        }
    }
}

/// At least half of the nodes with arms are `|`.
fn with_or(rng: &mut Rng, nodes: usize, table: &Table) -> Formula {
    let mut formula = Formula { nodes: Vec::new() };
    grow_or(rng, nodes, table, &mut formula.nodes);
    if rng.one_in(4) && formula.nodes.len() < MAX_NODES {
        formula = over(Node::Not, &formula);
    }
    formula
}

/// Of class 1. Answers the number of its root.
fn grow_or(rng: &mut Rng, count: usize, table: &Table, nodes: &mut Vec<Node>) -> usize {
    let (number, all) = (nodes.len(), Set::all(table.labels()));
    nodes.push(Node::True);
    let node = match (count, rng.below(6)) {
        (1, _) => Node::True,
        (3.., 0..3) => {
            let left = match rng.below(3) {
                0 => 1,
                1 => count - 2,
                _ => rng.between(1, count - 2),
            };
            let left_arm = grow_or(rng, left, table, nodes);
            Node::Or(left_arm, grow_or(rng, count - 1 - left, table, nodes))
        }
        (3.., 3) => {
            nodes.push(Node::Not(number + 2));
            grow_or(rng, count - 2, table, nodes);
            Node::Not(number + 1)
        }
        (_, 4) => Node::Next(Condition::Silent, grow_or(rng, count - 1, table, nodes)),
        _ => {
            let arm = grow_or(rng, count - 1, table, nodes);
            rng.pick(&[Node::Until(all, arm), Node::UntilThen(all, Set::EMPTY, arm)])
        }
    };
    nodes[number] = node;
    number
}
