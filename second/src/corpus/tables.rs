//! State tables of the corpus, their texts and their prepared bytes (docs/FORMATS.md).

use std::collections::BTreeSet;

use super::rng::Rng;

pub const TABLE_LENGTH: usize = 3_718;
/// Where the name slots and the transition slots begin.
pub const NAMES: usize = 6;
pub const STEPS: usize = 646;

pub struct Table {
    pub states: usize,
    pub start: usize,
    pub names: Vec<Vec<u8>>,
    /// From, label, to.
    pub steps: BTreeSet<[u8; 3]>,
}

/// Which states have exits.
#[derive(Clone, Copy, PartialEq, Eq)]
pub enum Exits {
    All,
    /// Some state has none, and the start is that state or leads to it.
    Lacking,
    Any,
}

impl Table {
    pub fn drawn(rng: &Rng, exits: Exits, states: usize, labels: usize, steps: usize) -> Table {
        let names = names(rng, labels, 3 + 9 * rng.below(2));
        let (start, still) = (rng.below(states), rng.below(states));
        let mut table = Table { states, start, names, steps: BTreeSet::new() };
        let step = |from: usize, to: usize| [from as u8, rng.below(labels + 1) as u8, to as u8];
        if exits == Exits::All {
            table.steps.extend((0..states).map(|from| step(from, rng.below(states))));
        }
        if exits == Exits::Lacking && start != still {
            table.steps.insert(step(start, still));
        }
        // Small tables have few steps to choose from, so the tries are bounded.
        for _ in 0..4 * steps {
            let from = rng.below(states);
            if table.steps.len() < steps && (exits != Exits::Lacking || from != still) {
                table.steps.insert(step(from, rng.below(states)));
            }
        }
        table
    }

    pub fn small(rng: &Rng, exits: Exits) -> Table {
        Table::drawn(rng, exits, rng.between(1, 6), rng.between(1, 4), rng.below(13))
    }

    pub fn medium(rng: &Rng, exits: Exits) -> Table {
        Table::drawn(rng, exits, rng.between(7, 40), rng.between(1, 12), rng.below(121))
    }

    pub fn largest(rng: &Rng, exits: Exits) -> Table {
        Table::drawn(rng, exits, 256, 40, 1_024)
    }

    pub fn without_labels(rng: &Rng, exits: Exits) -> Table {
        Table::drawn(rng, exits, rng.between(1, 6), 0, rng.below(9))
    }

    /// Table M of 01, whose state 2 has no exit; with exits, it has a step back to the start.
    pub fn m(rng: &Rng, exits: Exits) -> Table {
        let mut steps = BTreeSet::from([[0, 1, 1], [1, 0, 2], [1, 2, 0]]);
        if exits == Exits::All {
            steps.insert([2, rng.below(3) as u8, 0]);
        }
        Table { states: 3, start: rng.below(3), names: vec![b"req".into(), b"ack".into()], steps }
    }

    /// Every state has a silent step to itself.
    pub fn silent_loops(rng: &Rng) -> Table {
        let mut table = Table::small(rng, Exits::Any);
        table.steps.extend((0..table.states as u8).map(|state| [state, 0, state]));
        table
    }

    /// Every state in one ring, by one label or silent, and some steps aside.
    pub fn ring(rng: &Rng, states: usize, steps: usize) -> Table {
        let mut table = Table::drawn(rng, Exits::Any, states, 4, steps);
        table.steps.extend((0..states).map(|from| [from as u8, 1, ((from + 1) % states) as u8]));
        table
    }

    pub fn labels(&self) -> usize {
        self.names.len()
    }

    pub fn lines(&self) -> Vec<Vec<u8>> {
        let header = [self.states, self.labels(), self.steps.len(), self.start];
        let mut lines = vec![line(&header)];
        let named = |(name, number): (&Vec<u8>, usize)| {
            [format!("{number:>6} ").as_bytes(), name, b"\n"].concat()
        };
        lines.extend(self.names.iter().zip(1..).map(named));
        lines.extend(self.steps.iter().map(|step| line(&step.map(usize::from))));
        lines
    }

    pub fn text(&self) -> Vec<u8> {
        self.lines().concat()
    }

    pub fn bytes(&self) -> Vec<u8> {
        let mut bytes = vec![0; TABLE_LENGTH];
        bytes[0..2].copy_from_slice(&(self.states as u16).to_le_bytes());
        bytes[2] = self.labels() as u8;
        bytes[3..5].copy_from_slice(&(self.steps.len() as u16).to_le_bytes());
        bytes[5] = self.start as u8;
        for (slot, name) in bytes[NAMES..].chunks_mut(16).zip(&self.names) {
            slot[0] = name.len() as u8;
            slot[1..=name.len()].copy_from_slice(name);
        }
        for (slot, step) in bytes[STEPS..].chunks_mut(3).zip(&self.steps) {
            slot.copy_from_slice(step);
        }
        bytes
    }
}

pub fn line(numbers: &[usize]) -> Vec<u8> {
    let columns: String = numbers.iter().map(|number| format!("{number:>6}")).collect();
    (columns + "\n").into_bytes()
}

/// No two alike. None begins with `q`.
pub fn names(rng: &Rng, count: usize, longest: usize) -> Vec<Vec<u8>> {
    let mut names: Vec<Vec<u8>> = Vec::new();
    while names.len() < count {
        let name = name(rng, longest);
        if !names.contains(&name) {
            names.push(name);
        }
    }
    names
}

/// Mostly of few letters, so that names begin alike.
pub fn name(rng: &Rng, longest: usize) -> Vec<u8> {
    let length = if rng.one_in(4) { longest } else { rng.between(1, longest) };
    let few = rng.below(4) > 0;
    let first: &[u8] = if few { b"aabcz" } else { b"dehklmnprstvwxyz" };
    let further: &[u8] = if few { b"aabz019_" } else { b"acdefghijklmnopqrstuvwxyz_0123456789" };
    std::iter::once(rng.pick(first)).chain((1..length).map(|_| rng.pick(further))).collect()
}
