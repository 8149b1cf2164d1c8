//! The corpus `starts`, whose answers `corpus/starts.txt` holds: formulas asked at listed states, lists
//! that rise and such as 16 refuses, of up to 256 states and more, and what is refused before them.
//! Like the corpus `base`, whose random numbers, tables and formulas it uses, it is left alone.

use super::damage;
use super::formulas::Formula;
use super::questions::{Question, damaged_table, either, of_class, small};
use super::rng::Rng;
use super::tables::Exits::{All, Any, Lacking};
use super::tables::Table;
use super::{Input, Kind, Lent, kind, refused};

/// So many bytes are lent for answers.
const ANSWERS: usize = 256;

pub const KINDS: [Kind; 45] = [
    kind("verdicts", "none", 400, |rng| ask(rng, any(rng), none)),
    kind("verdicts", "one-state", 600, |rng| ask(rng, any(rng), one)),
    kind("verdicts", "all-states-class-1", 800, |rng| ask(rng, small(rng, All, 1), all)),
    kind("verdicts", "all-states-class-2", 800, |rng| ask(rng, small(rng, All, 2), all)),
    kind("verdicts", "all-states-idle-class-1", 800, |rng| ask(rng, small(rng, Lacking, 1), all)),
    kind("verdicts", "all-states-idle-class-2", 800, |rng| ask(rng, small(rng, Lacking, 2), all)),
    kind("verdicts", "all-states-but-one", 400, |rng| ask(rng, any(rng), all_but_one)),
    kind("verdicts", "rising-with-the-last", 600, |rng| ask(rng, any(rng), with_the_last)),
    kind("verdicts", "rising-without-the-last", 600, |rng| ask(rng, any(rng), without_the_last)),
    kind("verdicts", "m", 200, |rng| ask(rng, either(rng, Table::m(rng, Any)), rising)),
    kind("verdicts", "medium-rising", 400, |rng| {
        ask(rng, either(rng, Table::medium(rng, Any)), rising)
    }),
    kind("verdicts", "medium-all-states", 200, |rng| {
        ask(rng, either(rng, Table::medium(rng, Lacking)), all)
    }),
    kind("verdicts", "silent-loops", 200, |rng| {
        ask(rng, either(rng, Table::silent_loops(rng)), all)
    }),
    kind("verdicts", "no-labels", 200, |rng| {
        ask(rng, either(rng, Table::without_labels(rng, Any)), all)
    }),
    kind("verdicts", "40-nodes", 150, |rng| {
        let table = Table::small(rng, Any);
        let formula = Formula::drawn(rng, rng.between(1, 2) as u8, 40, table.labels());
        ask(rng, Question::of(table, formula), all)
    }),
    kind("verdicts", "largest-rising", 40, |rng| ask(rng, largest(rng), rising)),
    kind("verdicts", "largest-all-256", 40, |rng| ask(rng, largest(rng), all)),
    kind("verdicts", "largest-255-of-256", 30, |rng| ask(rng, largest(rng), all_but_one)),
    kind("verdicts", "ring-all-256", 40, |rng| ask(rng, ring(rng), all)),
    kind("verdicts", "state-255-alone", 60, |rng| ask(rng, ring(rng), |_, _| vec![255])),
    kind("verdicts", "answers-longer", 300, |rng| {
        ask_with(rng, any(rng), rising, damage::longer(rng, ANSWERS))
    }),
    kind("verdicts", "bad-one-state-twice", 300, |rng| ask(rng, several(rng), twice)),
    kind("verdicts", "bad-exchanged", 300, |rng| ask(rng, several(rng), exchanged)),
    kind("verdicts", "bad-falling", 300, |rng| {
        ask(rng, several(rng), |rng, states| all(rng, states).into_iter().rev().collect())
    }),
    kind("verdicts", "bad-again-behind-others", 300, |rng| {
        ask(rng, several(rng), |rng, states| {
            let list = all(rng, states);
            let again = list[..rng.between(1, states - 1)].to_vec();
            [list, again].concat()
        })
    }),
    kind("verdicts", "bad-equal-to-the-count", 400, |rng| {
        ask(rng, any(rng), |rng, states| [rising(rng, states), vec![states as u8]].concat())
    }),
    kind("verdicts", "bad-count-alone", 100, |rng| {
        ask(rng, any(rng), |_, states| vec![states as u8])
    }),
    kind("verdicts", "bad-255-of-fewer", 200, |rng| {
        ask(rng, any(rng), |rng, states| [rising(rng, states), vec![255]].concat())
    }),
    kind("verdicts", "bad-above-the-count-within", 300, |rng| {
        ask(rng, several(rng), |rng, states| {
            let mut list = all(rng, states);
            list.insert(rng.below(states), rng.between(states, 255) as u8);
            list
        })
    }),
    kind("verdicts", "bad-in-several-places", 400, |rng| {
        ask(rng, several(rng), |rng, states| {
            let mut list = twice(rng, states);
            for _ in 0..rng.between(1, 3) {
                let more = rng.pick(&[0, states - 1, states, 255, rng.below(states)]);
                list.push(more as u8);
            }
            list
        })
    }),
    kind("verdicts", "bad-each-byte-of-fewer", 60, |rng| {
        ask(rng, any(rng), |_, _| in_turn(256, 256))
    }),
    kind("verdicts", "bad-257-entries-of-fewer", 60, |rng| {
        ask(rng, any(rng), |_, states| in_turn(states, 257))
    }),
    kind("verdicts", "bad-300-entries-of-fewer", 60, |rng| {
        ask(rng, any(rng), |_, states| in_turn(states, 300))
    }),
    kind("verdicts", "bad-256-entries-the-last", 60, |rng| {
        ask(rng, ring(rng), |rng, _| {
            let mut list = in_turn(256, 256);
            list[255] = rng.pick(&[0, 1, 128, 253, 254]);
            list
        })
    }),
    kind("verdicts", "bad-256-entries-one-twice", 60, |rng| {
        ask(rng, ring(rng), |rng, _| {
            let mut list = in_turn(256, 256);
            let index = rng.below(255);
            list[index + 1] = index as u8;
            list
        })
    }),
    kind("verdicts", "bad-257-entries", 60, |rng| {
        ask(rng, ring(rng), |rng, _| [in_turn(256, 256), vec![damage::any_byte(rng)]].concat())
    }),
    kind("verdicts", "bad-300-entries", 60, |rng| ask(rng, ring(rng), |_, _| in_turn(256, 300))),
    kind("verdicts", "bad-70000-entries", 10, |rng| {
        ask(rng, ring(rng), |_, _| in_turn(256, 70_000))
    }),
    kind("verdicts", "any-bytes", 200, |rng| {
        ask(rng, any(rng), |rng, _| damage::bytes(rng, rng.between(1, 400), damage::any_byte))
    }),
    kind("verdicts", "answers-short", 300, |rng| {
        ask_with(rng, any(rng), rising, damage::shorter(rng, ANSWERS))
    }),
    kind("verdicts", "answers-short-list-wrong", 150, |rng| {
        ask_with(rng, several(rng), twice, damage::shorter(rng, ANSWERS))
    }),
    kind("verdicts", "answers-short-formula-short", 100, |rng| {
        let question = any(rng).resized(rng, |_, length| length, damage::shorter);
        ask_with(rng, question, rising, damage::shorter(rng, ANSWERS))
    }),
    kind("verdicts", "answers-short-foreign", 150, |rng| {
        ask_with(rng, foreign(rng), rising, damage::shorter(rng, ANSWERS))
    }),
    kind("verdicts", "foreign-list-wrong", 300, |rng| ask(rng, foreign(rng), twice)),
    kind("verdicts", "random-formula-list-wrong", 100, |rng| {
        let mut question = several(rng);
        question.formula_bytes = damage::bytes(rng, question.formula_bytes.len(), damage::any_byte);
        ask(rng, question, twice)
    }),
];

pub fn kinds() -> impl Iterator<Item = Kind> {
    KINDS.into_iter().chain(refused("verdicts", |rng, question| ask(rng, question, rising)))
}

/// A list over so many states.
type List = fn(&Rng, usize) -> Vec<u8>;

fn ask_with(rng: &Rng, question: Question, list: List, length: usize) -> Input {
    let starts = list(rng, question.table.states);
    let Question { table_bytes: table, formula_bytes: formula, .. } = question;
    Input::Verdicts { table, formula, starts, answers: Lent::drawn(rng, length) }
}

fn ask(rng: &Rng, question: Question, list: List) -> Input {
    ask_with(rng, question, list, ANSWERS)
}

fn any(rng: &Rng) -> Question {
    either(rng, Table::small(rng, Any))
}

/// Of two states or more.
fn several(rng: &Rng) -> Question {
    let table = Table::drawn(rng, Any, rng.between(2, 9), rng.between(1, 4), rng.below(20));
    either(rng, table)
}

fn largest(rng: &Rng) -> Question {
    either(rng, Table::largest(rng, Any))
}

fn ring(rng: &Rng) -> Question {
    of_class(rng, Table::ring(rng, 256, rng.below(20)), rng.between(1, 2) as u8)
}

fn foreign(rng: &Rng) -> Question {
    let mut question = several(rng);
    question.table_bytes = damaged_table(rng, &question.table);
    question
}

/// So many entries, the first state behind the last.
fn in_turn(states: usize, entries: usize) -> Vec<u8> {
    (0..entries).map(|index| (index % states) as u8).collect()
}

fn none(_: &Rng, _: usize) -> Vec<u8> {
    Vec::new()
}

fn one(rng: &Rng, states: usize) -> Vec<u8> {
    vec![rng.below(states) as u8]
}

fn all(_: &Rng, states: usize) -> Vec<u8> {
    in_turn(states, states)
}

fn all_but_one(rng: &Rng, states: usize) -> Vec<u8> {
    let mut list = all(rng, states);
    list.remove(rng.below(states));
    list
}

fn rising(rng: &Rng, states: usize) -> Vec<u8> {
    let one_in = rng.between(1, 4);
    all(rng, states).into_iter().filter(|_| rng.one_in(one_in)).collect()
}

fn with_the_last(rng: &Rng, states: usize) -> Vec<u8> {
    [rising(rng, states - 1), vec![(states - 1) as u8]].concat()
}

fn without_the_last(rng: &Rng, states: usize) -> Vec<u8> {
    rising(rng, states - 1)
}

/// One state is its own neighbour.
fn twice(rng: &Rng, states: usize) -> Vec<u8> {
    let mut list = with_the_last(rng, states);
    let index = rng.below(list.len());
    list.insert(index, list[index]);
    list
}

/// Two neighbours stand in each other's place.
fn exchanged(rng: &Rng, states: usize) -> Vec<u8> {
    let mut list = all(rng, states);
    let index = rng.below(states - 1);
    list.swap(index, index + 1);
    list
}
