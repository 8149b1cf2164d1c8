//! Random questions: a table and a formula over its labels, of every size.

use super::kinds::{self, Kinds, must};
use super::rng::Rng;
use super::tables::{EXITS, EXITS_OF, Size, expected_names, with_any_names};
use super::{formulas, tables};
use crate::formula::{Formula, MAX_NODES, Node, Set};
use crate::table::{MAX_LABELS, MAX_STATES, MAX_TRANSITIONS, Table};
use crate::tally::Expected;

pub struct Question {
    pub table: Table,
    pub formula: Formula,
}

/// One in `rarity` has a table at the limits.
pub fn question(rng: &mut Rng, rarity: usize) -> Question {
    let size = tables::size(rng, rarity);
    of_size(rng, &mut Kinds::default(), size)
}

fn of_size(rng: &mut Rng, kinds: &mut Kinds, size: Size) -> Question {
    let table = tables::table(rng, kinds, size);
    let nodes = formulas::node_count(rng);
    let class = formulas::class(rng, nodes);
    let formula = formulas::formula(rng, Some(class), nodes, &table);
    Question { table, formula }
}

const PART: &str = "question";
pub const LARGEST: &str = "256 states, 1,024 transitions, 40 nodes";
const LASTING: &str = "an until for long words";

/// A question of any size; one in `largest_in` has the most of all.
pub fn of_any_size(rng: &mut Rng, kinds: &mut Kinds, rarity: usize, largest_in: usize) -> Question {
    if rng.one_in(largest_in) {
        kinds.note(PART, LARGEST);
        return largest(rng, kinds);
    }
    let size = tables::size(rng, rarity);
    kinds.note(PART, size.name());
    let Question { table, formula } = of_size(rng, kinds, size);
    Question { table: with_any_names(rng, kinds, table), formula }
}

/// All that `of_any_size` must have made.
pub fn expected() -> Vec<Expected> {
    let sizes = Size::NAMES.into_iter().chain([LARGEST]);
    let sizes = sizes.map(|name| must(PART, name, &[0]));
    sizes.chain(expected_names()).chain(kinds::expected(EXITS, &EXITS_OF)).collect()
}

/// What `with_long_words` must have made.
pub fn expected_with_long_words() -> Expected {
    must(PART, LASTING, &[0, 13])
}

/// The most states, transitions and nodes together, over few labels or the most.
pub fn largest(rng: &mut Rng, kinds: &mut Kinds) -> Question {
    let labels = rng.pick(&[0, 1, 2, 3, MAX_LABELS, MAX_LABELS]);
    let table = tables::with_counts(rng, kinds, MAX_STATES, labels, MAX_TRANSITIONS);
    let formula = match rng.below(4) {
        0 => formulas::until(rng, MAX_NODES, &table),
        1 => untils(Set::all(labels)),
        _ => {
            let class = formulas::class(rng, MAX_NODES);
            formulas::formula(rng, Some(class), MAX_NODES, &table)
        }
    };
    Question { table, formula }
}

/// About 10,000 rows and hundreds of thousands of edges: a chain of untils over all states.
pub fn longest_listing(rng: &mut Rng) -> Question {
    let kinds = &mut Kinds::default();
    let table = tables::with_counts(rng, kinds, MAX_STATES, MAX_LABELS, MAX_TRANSITIONS);
    Question { table, formula: untils(Set::all(MAX_LABELS)) }
}

/// The most nodes, each an until of this set but the last.
pub fn untils(set: Set) -> Formula {
    let mut nodes: Vec<Node> = (1..MAX_NODES).map(|arm| Node::Until(set, arm)).collect();
    nodes.push(Node::True);
    Formula { nodes }
}

/// An until over a table with many steps for its states, so that explanations of any length are
/// likely; one in `largest_in` has the most of all.
pub fn with_long_words(rng: &mut Rng, kinds: &mut Kinds, largest_in: usize) -> Question {
    if rng.one_in(largest_in) {
        kinds.note(PART, LARGEST);
        return largest(rng, kinds);
    }
    kinds.note(PART, LASTING);
    let (states, labels) = (rng.between(1, 8), rng.below(5));
    let transitions = rng.between(states, 4 * states);
    let drawn = tables::with_counts(rng, kinds, states, labels, transitions);
    let table = tables::with_any_exits(rng, kinds, &drawn);
    let nodes = rng.between(3, 9);
    Question { formula: formulas::until(rng, nodes, &table), table }
}
