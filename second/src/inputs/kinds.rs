//! Ways to make a part of an input, each with a name by which its inputs are counted.

use super::rng::Rng;
use crate::tally::{Expected, Kind, Outcome};

/// The kinds of an input's parts.
#[derive(Default)]
pub struct Kinds(pub Vec<Kind>);

impl Kinds {
    pub fn note(&mut self, part: &'static str, name: &'static str) {
        self.0.push(Kind { part, name });
    }

    /// Of another kind than it was made as.
    pub fn note_instead(&mut self, part: &'static str, name: &'static str) {
        self.0.retain(|kind| kind.part != part);
        self.note(part, name);
    }

    /// A part, made in one of these ways.
    pub fn make<Of, Made>(
        &mut self,
        rng: &mut Rng,
        part: &'static str,
        ways: &[Way<Of, Made>],
        of: &Of,
    ) -> Made {
        let way = pick(rng, ways);
        self.note(part, way.name);
        (way.make)(rng, of)
    }
}

/// One way to make a part of an input.
pub struct Way<Of, Made> {
    pub name: &'static str,
    /// Of the shares of all ways.
    pub share: usize,
    /// The numbers that some of what is made so must be answered by.
    pub numbers: &'static [u32],
    pub make: fn(&mut Rng, &Of) -> Made,
}

pub const fn way<Of, Made>(
    name: &'static str,
    share: usize,
    numbers: &'static [u32],
    make: fn(&mut Rng, &Of) -> Made,
) -> Way<Of, Made> {
    Way { name, share, numbers, make }
}

/// By the shares.
pub fn pick<'a, Of, Made>(rng: &mut Rng, ways: &'a [Way<Of, Made>]) -> &'a Way<Of, Made> {
    let mut left = rng.below(ways.iter().map(|way| way.share).sum());
    let chosen = ways.iter().find(|way| {
        let is_chosen = left < way.share;
        left = left.saturating_sub(way.share);
        is_chosen
    });
    chosen.expect("what is left is below the sum of the shares")
}

/// Each of these ways must occur.
pub fn expected<Of, Made>(part: &'static str, ways: &[Way<Of, Made>]) -> Vec<Expected> {
    let expected = |way: &Way<Of, Made>| must(part, way.name, way.numbers);
    ways.iter().map(expected).collect()
}

pub fn must(part: &'static str, name: &'static str, numbers: &[u32]) -> Expected {
    let outcomes = numbers.iter().map(|&number| Outcome::of(number)).collect();
    Expected { kind: Kind { part, name }, outcomes }
}
