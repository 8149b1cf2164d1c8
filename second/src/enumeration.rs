//! The least accepted words, by Definition 6 on lengths: the words of one length that explain a node
//! from a state are those of its arms, and a step before those one shorter.

use crate::formula::{Formula, Node};
use crate::table::{Steps, Table};

pub type Word = Vec<u8>;

/// How many accepted words follow those that are listed.
#[derive(Clone, Copy, Debug, PartialEq, Eq)]
pub enum More {
    None,
    Finitely,
    Infinitely,
}

#[derive(Clone, Debug, PartialEq, Eq)]
pub struct Enumeration {
    pub words: Vec<Word>,
    pub more: More,
}

/// So many words, or all there are: shorter ones first, those of one length by their labels from
/// the left.
pub fn least(table: &Table, formula: &Formula, count: usize) -> Enumeration {
    let steps = table.steps();
    let lengths = |kept| Lengths::new(&steps, formula, table.start, kept);
    let end = end(lengths(0));
    let least = lengths(count + 1).take(end.unwrap_or(usize::MAX)).flat_map(|words| words.least);
    let mut words: Vec<Word> = least.take(count + 1).collect();
    let more = match (words.len() > count, end) {
        (false, _) => More::None,
        (true, Some(_)) => More::Finitely,
        (true, None) => More::Infinitely,
    };
    words.truncate(count);
    Enumeration { words, more }
}

/// The least length that no word reaches; none if there are infinitely many words.
fn end(lengths: Lengths) -> Option<usize> {
    // An until whose steps come to no state twice has as many as there are states at the most, any
    // other node has one. If a path that explains has more in all, some until comes to a state
    // twice, within as many steps as there are states. Without the steps between, and with them any
    // number of times, the path explains as well. So there are infinitely many words if and only if
    // one is longer than this bound, and then one is so by no more than the number of states.
    let states = lengths.steps.states();
    let steps_of = |node: &Node| match node {
        Node::Until(..) | Node::UntilThen(..) => states,
        _ => 1,
    };
    let bound: usize = lengths.formula.nodes.iter().map(steps_of).sum();
    let exist: Vec<bool> = lengths.take(bound + states + 1).map(|words| words.exist).collect();
    let end = exist.iter().rposition(|&exist| exist).map_or(0, |longest| longest + 1);
    (end <= bound + 1).then_some(end)
}

/// Words of one length: whether there are any, and the least of them, rising.
#[derive(Clone, Default)]
struct Words {
    exist: bool,
    least: Vec<Word>,
}

impl Words {
    fn one(word: Word) -> Words {
        Words { exist: true, least: vec![word] }
    }

    fn add(&mut self, words: &Words) {
        self.exist |= words.exist;
        self.least.extend_from_slice(&words.least);
    }

    fn add_behind(&mut self, label: u8, shorter: &Words) {
        self.exist |= shorter.exist;
        self.least.extend(shorter.least.iter().map(|word| [&[label], word.as_slice()].concat()));
    }

    /// The least of several parts are among the least of each.
    fn keep(mut self, count: usize) -> Words {
        self.least.sort_unstable();
        self.least.dedup();
        self.least.truncate(count);
        self
    }
}

/// Of each length, from 0 on, the words that explain the root from the start.
struct Lengths<'a> {
    steps: &'a Steps,
    formula: &'a Formula,
    start: u8,
    /// So many words of a length are kept for each node and state.
    kept: usize,
    /// Of the words that come next.
    length: usize,
    /// The words one shorter, by node, then state.
    shorter: Vec<Words>,
}

impl Iterator for Lengths<'_> {
    type Item = Words;

    fn next(&mut self) -> Option<Words> {
        let states = self.steps.states();
        let mut words = vec![Words::default(); self.shorter.len()];
        // Arms stand behind their node.
        for index in (0..words.len()).rev() {
            let explaining = self.explaining(index / states, (index % states) as u8, &words);
            words[index] = explaining.keep(self.kept);
        }
        self.shorter = words;
        self.length += 1;
        Some(self.shorter[self.index(0, self.start)].clone())
    }
}

impl Lengths<'_> {
    fn new<'a>(steps: &'a Steps, formula: &'a Formula, start: u8, kept: usize) -> Lengths<'a> {
        let shorter = vec![Words::default(); formula.nodes.len() * steps.states()];
        Lengths { steps, formula, start, kept, length: 0, shorter }
    }

    fn index(&self, node: usize, state: u8) -> usize {
        node * self.steps.states() + state as usize
    }

    /// The words that some path from the state has which explains the node, given those of its arms.
    fn explaining(&self, node: usize, state: u8, of_arms: &[Words]) -> Words {
        let mut words = Words::default();
        match self.formula.nodes[node] {
            Node::True if self.length == 0 => words = Words::one(Vec::new()),
            Node::True => {}
            Node::Not(arm) => words.add(&of_arms[self.index(arm, state)]),
            Node::Or(left, right) => {
                words.add(&of_arms[self.index(left, state)]);
                words.add(&of_arms[self.index(right, state)]);
            }
            Node::Next(condition, arm) => {
                self.step_to(arm, state, |label| condition.meets(label), &mut words);
            }
            Node::Until(set, arm) => {
                words.add(&of_arms[self.index(arm, state)]);
                self.step_to(node, state, |label| set.passes(label), &mut words);
            }
            Node::UntilThen(set, then, arm) => {
                self.step_to(arm, state, |label| then.has(label), &mut words);
                self.step_to(node, state, |label| set.passes(label), &mut words);
            }
            Node::AllNext(condition, arm) => {
                let last = self.steps.from(state).iter().filter(|_| self.length == 1);
                for step in last.filter(|step| !condition.meets(step.label)) {
                    words.add(&Words::one(vec![step.label]));
                }
                if self.formula.nodes[arm] != Node::True {
                    self.step_to(arm, state, |label| condition.meets(label), &mut words);
                }
            }
        }
        words
    }

    /// Adds those with such a step before a shorter word that explains the node.
    fn step_to(&self, node: usize, state: u8, meets: impl Fn(u8) -> bool, words: &mut Words) {
        for step in self.steps.from(state).iter().filter(|step| meets(step.label)) {
            words.add_behind(step.label, &self.shorter[self.index(node, step.to)]);
        }
    }
}
