//! How often each answer and each kind of input occurred, and what should have occurred and did
//! not.

use std::collections::{BTreeMap, BTreeSet};
use std::fmt;

/// An answer's number and, where it is one of a few, its figure.
#[derive(Clone, Copy, Debug, PartialEq, Eq, PartialOrd, Ord)]
pub struct Outcome {
    pub number: u32,
    pub figure: Option<u64>,
}

impl Outcome {
    pub const NO: Outcome = Outcome { number: 0, figure: Some(0) };
    pub const YES: Outcome = Outcome { number: 0, figure: Some(1) };

    pub const fn of(number: u32) -> Outcome {
        Outcome { number, figure: None }
    }

    fn is_example_of(self, expected: Outcome) -> bool {
        self.number == expected.number
            && (expected.figure.is_none() || self.figure == expected.figure)
    }
}

impl fmt::Display for Outcome {
    fn fmt(&self, to: &mut fmt::Formatter) -> fmt::Result {
        match self.figure {
            None => write!(to, "{}", self.number),
            Some(figure) => write!(to, "{}, figure {figure}", self.number),
        }
    }
}

/// A part of an input, and what it is there.
#[derive(Clone, Copy, Debug, PartialEq, Eq, PartialOrd, Ord)]
pub struct Kind {
    pub part: &'static str,
    pub name: &'static str,
}

impl fmt::Display for Kind {
    fn fmt(&self, to: &mut fmt::Formatter) -> fmt::Result {
        write!(to, "{}: {}", self.part, self.name)
    }
}

type Outcomes = BTreeMap<Outcome, u64>;

/// A kind of input that must occur, and the answers that it must have had among others.
pub struct Expected {
    pub kind: Kind,
    pub outcomes: Vec<Outcome>,
}

/// What was compared of one entry, or of the program.
#[derive(Debug, Default)]
pub struct Tally {
    pub of: &'static str,
    pub inputs: u64,
    pub outcomes: Outcomes,
    pub kinds: BTreeMap<Kind, Outcomes>,
}

impl Tally {
    pub fn new(of: &'static str) -> Tally {
        Tally { of, ..Tally::default() }
    }

    pub fn count(&mut self, kinds: &[Kind], outcome: Outcome) {
        self.inputs += 1;
        *self.outcomes.entry(outcome).or_default() += 1;
        for kind in kinds {
            *self.kinds.entry(*kind).or_default().entry(outcome).or_default() += 1;
        }
    }

    /// How often each number was answered.
    pub fn numbers(&self) -> BTreeMap<u32, u64> {
        let mut numbers = BTreeMap::new();
        for (outcome, times) in &self.outcomes {
            *numbers.entry(outcome.number).or_default() += times;
        }
        numbers
    }

    /// Those numbers that were not answered once in so many inputs, and kinds that did not occur.
    pub fn missing(&self, numbers: &[u32], once_in: u64, expected: &[Expected]) -> Vec<String> {
        let answered = self.numbers();
        let times = |number: &u32| answered.get(number).copied().unwrap_or(0);
        let rare = numbers.iter().filter(|number| times(number) < (self.inputs / once_in).max(1));
        let rare = rare.map(|number| format!("{}: {number} was answered too seldom", self.of));
        let kinds = expected.iter().flat_map(|expected| self.lacks(expected));
        rare.chain(kinds).collect()
    }

    fn lacks(&self, expected: &Expected) -> Vec<String> {
        let kind = expected.kind;
        let Some(met) = self.kinds.get(&kind) else {
            return vec![format!("{}: no {kind}", self.of)];
        };
        let is_met = |outcome: &Outcome| met.keys().any(|met| met.is_example_of(*outcome));
        let lacking = expected.outcomes.iter().filter(|outcome| !is_met(outcome));
        lacking.map(|outcome| format!("{}: no {kind} answered {outcome}", self.of)).collect()
    }
}

/// A line for each answer and each kind, a column for each tally.
pub fn table(tallies: &[Tally]) -> String {
    let outcomes: BTreeSet<Outcome> =
        tallies.iter().flat_map(|tally| tally.outcomes.keys().copied()).collect();
    let kinds: BTreeSet<Kind> =
        tallies.iter().flat_map(|tally| tally.kinds.keys().copied()).collect();
    let mut lines =
        vec![("inputs".to_string(), tallies.iter().map(|tally| tally.of.into()).collect())];
    let shown = |times: u64| if times == 0 { "-".to_string() } else { times.to_string() };
    for outcome in outcomes {
        let times = |tally: &Tally| shown(tally.outcomes.get(&outcome).copied().unwrap_or(0));
        lines.push((format!("answered {outcome}"), tallies.iter().map(times).collect()));
    }
    for kind in kinds {
        let times = |tally: &Tally| {
            shown(tally.kinds.get(&kind).map_or(0, |outcomes| outcomes.values().sum()))
        };
        lines.push((kind.to_string(), tallies.iter().map(times).collect::<Vec<String>>()));
    }
    let width = lines.iter().map(|(name, _)| name.len()).max().unwrap_or(0);
    let line = |(name, columns): &(String, Vec<String>)| {
        let columns: String = columns.iter().map(|column| format!(" {column:>12}")).collect();
        format!("{name:<width$}{columns}\n")
    };
    lines.iter().map(line).collect()
}
