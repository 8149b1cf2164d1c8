//! Lists of states at which a formula is asked: rising, as it must be, and such as 16 refuses.

use super::bytes::random_bytes;
use super::formulas;
use super::kinds::{self, Kinds, Way, way};
use super::questions::Question;
use super::rng::Rng;
use crate::table::MAX_STATES;
use crate::tally::{Expected, Kind, Outcome};
use crate::{baseline, prepared};

const PART: &str = "starts";

/// Over a table of so many states.
const LISTS: [Way<usize, Vec<u8>>; 13] = [
    way("none", 3, &[0], |_, _| Vec::new()),
    way("all states", 3, &[0], |_, &states| all(states)),
    way("all states but one", 2, &[0], |rng, &states| all_but_one(rng, states)),
    way("one state", 3, &[0], |rng, &states| vec![rng.below(states) as u8]),
    way("rising, the last state among them", 4, &[0], |rng, &states| {
        some_and(rng, states - 1, states - 1)
    }),
    way("rising, without the last state", 4, &[0], |rng, &states| some(rng, states - 1)),
    way("one entry twice", 2, &[16], |rng, &states| {
        let mut list = some_at_least_one(rng, states);
        let index = rng.below(list.len());
        list.insert(index, list[index]);
        list
    }),
    way("two neighbours exchanged", 2, &[16], |rng, &states| {
        let mut list = some_at_least_one(rng, states);
        if list.len() > 1 {
            let index = rng.below(list.len() - 1);
            list.swap(index, index + 1);
        }
        list
    }),
    way("falling", 1, &[16], |rng, &states| {
        some_at_least_one(rng, states).into_iter().rev().collect()
    }),
    way("several entries changed", 3, &[0, 16], |rng, &states| {
        let mut list = some_at_least_one(rng, states);
        for _ in 0..rng.between(2, 4) {
            let index = rng.below(list.len());
            list[index] = rng.below((states + 2).min(MAX_STATES)) as u8;
        }
        list
    }),
    way("any bytes", 1, &[16], |rng, _| {
        let length = rng.between(1, 400);
        random_bytes(rng, length)
    }),
    way("256 entries, all states in turn", 1, &[0, 16], |_, &states| in_turn(states, 256)),
    way("257 entries or more, all states in turn", 2, &[16], |rng, &states| {
        let length = rng.pick(&[257, 257, 300, 512, 513, 65_536, 70_000]);
        in_turn(states, length)
    }),
];

/// Over a table that lacks a state.
const LISTS_OF_FEWER: [Way<usize, Vec<u8>>; 5] = [
    way("rising, to the count of states", 4, &[16], |rng, &states| some_and(rng, states, states)),
    way("the count of states alone", 1, &[16], |_, &states| vec![states as u8]),
    way("rising, to 255", 1, &[16], |rng, &states| some_and(rng, states, MAX_STATES - 1)),
    way("a state that the table lacks, then others", 2, &[16], |rng, &states| {
        let mut list = some_at_least_one(rng, states);
        let index = rng.below(list.len());
        list.insert(index, rng.between(states, MAX_STATES - 1) as u8);
        list
    }),
    way("each byte", 1, &[16], |_, _| all(MAX_STATES)),
];

/// Over a table that has them all.
const LISTS_OF_MOST: [Way<usize, Vec<u8>>; 6] = [
    way("state 255 alone", 1, &[0], |_, _| vec![u8::MAX]),
    way("all 256", 1, &[0], |_, &states| all(states)),
    way("all 256 but one", 1, &[0], |rng, &states| all_but_one(rng, states)),
    way("256 entries, the last not above", 1, &[16], |rng, &states| {
        let mut list = all(states);
        list[states - 1] = rng.pick(&[0, 128, 253, 254]);
        list
    }),
    way("all 256 and one more", 1, &[16], |rng, &states| {
        let more = rng.pick(&[0, 1, 254, 255]);
        [all(states), vec![more]].concat()
    }),
    way("all 256 and 44 more", 1, &[16], |rng, &states| {
        [all(states), random_bytes(rng, 44)].concat()
    }),
];

fn all(states: usize) -> Vec<u8> {
    in_turn(states, states)
}

/// So many entries, the first state behind the last.
fn in_turn(states: usize, entries: usize) -> Vec<u8> {
    (0..entries).map(|index| (index % states) as u8).collect()
}

fn all_but_one(rng: &mut Rng, states: usize) -> Vec<u8> {
    let mut list = all(states);
    list.remove(rng.below(states));
    list
}

/// Rising: all of them, a half, a third, or about six.
fn some(rng: &mut Rng, states: usize) -> Vec<u8> {
    let one_in = rng.pick(&[1, 2, 2, 3, states.div_ceil(6)]).max(1);
    all(states).into_iter().filter(|_| rng.one_in(one_in)).collect()
}

/// And one more behind them.
fn some_and(rng: &mut Rng, states: usize, last: usize) -> Vec<u8> {
    let mut list = some(rng, states);
    list.push(last as u8);
    list
}

fn some_at_least_one(rng: &mut Rng, states: usize) -> Vec<u8> {
    let list = some(rng, states);
    match list.is_empty() {
        true => vec![rng.below(states) as u8],
        false => list,
    }
}

/// One list in four is made for as many states as the table has.
pub fn list(rng: &mut Rng, kinds: &mut Kinds, states: usize) -> Vec<u8> {
    let ways: &[Way<usize, Vec<u8>>] = match (rng.one_in(4), states) {
        (false, _) => &LISTS,
        (true, MAX_STATES) => &LISTS_OF_MOST,
        (true, _) => &LISTS_OF_FEWER,
    };
    kinds.make(rng, PART, ways, &states)
}

/// Where a formula holds, of several listed states and of the table's start.
struct Held {
    name: &'static str,
    is_so: fn(&[bool], bool) -> bool,
    outcome: Outcome,
}

const fn held(name: &'static str, outcome: Outcome, is_so: fn(&[bool], bool) -> bool) -> Held {
    Held { name, is_so, outcome }
}

const HELD: &str = "holds";

const HELD_AT: [Held; 7] = [
    held("at all", Outcome::YES, |listed, _| !listed.contains(&false)),
    held("at none", Outcome::NO, |listed, _| !listed.contains(&true)),
    held("at the first and the last, not at all", Outcome::NO, |listed, _| {
        listed[0] && listed[listed.len() - 1] && listed.contains(&false)
    }),
    held("at the last, not at the first", Outcome::NO, |listed, _| {
        !listed[0] && listed[listed.len() - 1]
    }),
    held("at the first, not at the last", Outcome::NO, |listed, _| {
        listed[0] && !listed[listed.len() - 1]
    }),
    held("at all, not at the start", Outcome::YES, |listed, at_start| {
        !listed.contains(&false) && !at_start
    }),
    held("at the start, not at all", Outcome::NO, |listed, at_start| {
        listed.contains(&false) && at_start
    }),
];

/// The listed states' answers, if none is wrong.
fn answers(question: &Question, starts: &[u8]) -> Option<Vec<bool>> {
    let table = prepared::table_bytes(&question.table);
    let formula = prepared::formula_bytes(&question.formula);
    let mut answers = [0; MAX_STATES];
    let reply = baseline::verdicts(&table, &formula, starts, &mut answers);
    let listed = answers.iter().take(starts.len()).map(|&answer| answer == 1);
    (reply.number == 0).then(|| listed.collect())
}

/// Half of the formulas give way to others of as many nodes, until one holds at some states only or
/// there were tries enough.
pub fn telling(rng: &mut Rng, mut question: Question) -> Question {
    let tries = rng.pick(&[0, 12]);
    for _ in 0..tries {
        let held = answers(&question, &all(question.table.states)).expect("all states rise");
        if held.contains(&true) && held.contains(&false) {
            break;
        }
        let nodes = question.formula.nodes.len();
        let class = formulas::class(rng, nodes);
        question.formula = formulas::formula(rng, Some(class), nodes, &question.table);
    }
    question
}

/// Where the formula holds, if several states are listed and none is wrong.
pub fn note_where(kinds: &mut Kinds, question: &Question, starts: &[u8]) {
    let listed = answers(question, starts).filter(|listed| listed.len() > 1);
    let at_start = answers(question, &[question.table.start]);
    if let (Some(listed), Some(at_start)) = (listed, at_start) {
        for held in HELD_AT.iter().filter(|held| (held.is_so)(&listed, at_start[0])) {
            kinds.note(HELD, held.name);
        }
    }
}

/// All that `list` must have made, and where formulas must have held.
pub fn expected() -> Vec<Expected> {
    let lists = [LISTS.as_slice(), &LISTS_OF_FEWER, &LISTS_OF_MOST];
    let held = |held: &Held| Expected {
        kind: Kind { part: HELD, name: held.name },
        outcomes: vec![held.outcome],
    };
    let lists = lists.into_iter().flat_map(|ways| kinds::expected(PART, ways));
    lists.chain(HELD_AT.iter().map(held)).collect()
}
