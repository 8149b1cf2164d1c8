//! Calls of building and of words, and all entries in turn from both texts: the places lent, and
//! words along paths, beside them and refused.

use super::formulas::{Formula, spaced};
use super::questions::{Question, either, of_class, small};
use super::rng::Rng;
use super::tables::Exits::{self, All, Lacking};
use super::tables::Table;
use super::{Input, Kind, Lent, damage, kind};

const MAX_WORD: usize = 1_024;

pub fn verdict(question: Question) -> Input {
    Input::Verdict { table: question.table_bytes, formula: question.formula_bytes }
}

/// So many bytes for rows and for edges.
fn lend(rng: &Rng, question: Question, rows: usize, edges: usize) -> Input {
    let (rows, edges) = (Lent::drawn(rng, rows), Lent::drawn(rng, edges));
    let Question { table_bytes: table, formula_bytes: formula, .. } = question;
    Input::Build { table, formula, rows, edges }
}

/// Places for every position and for about eight edges of each, and a part of one left over.
fn room(rng: &Rng, question: &Question) -> (usize, usize) {
    let rows = question.table.states * (question.formula.nodes.len() + 1);
    (3 * rows.min(1_500) + rng.below(3), 5 * rows.min(1_500) * 8 + rng.below(5))
}

pub fn build(rng: &Rng, question: Question) -> Input {
    let (rows, edges) = room(rng, &question);
    lend(rng, question, rows, edges)
}

/// Places for at most so many rows and edges; few listings need as many as are lent.
fn places(rng: &Rng, question: Question, rows: usize, edges: usize) -> Input {
    lend(rng, question, rng.below(3 * rows + 1), rng.below(5 * edges + 1))
}

pub const BUILD: [Kind; 8] = [
    kind("build", "no-places", 250, |rng| places(rng, either(rng, Table::small(rng, All)), 0, 0)),
    kind("build", "one-row", 500, |rng| lend(rng, small(rng, All, 1), 3, 0)),
    kind("build", "few-places-with-exits", 1_200, |rng| {
        places(rng, either(rng, Table::small(rng, All)), 8, 12)
    }),
    kind("build", "few-places-some-without", 1_200, |rng| {
        places(rng, either(rng, Table::small(rng, Lacking)), 8, 12)
    }),
    kind("build", "few-edges-with-exits", 700, |rng| {
        lend(rng, small(rng, All, 1), 3 * 250, rng.below(5 * 8))
    }),
    kind("build", "few-edges-some-without", 700, |rng| {
        lend(rng, small(rng, Lacking, 1), 3 * 250, rng.below(5 * 8))
    }),
    kind("build", "most-rows", 20, |rng| {
        let untils = Formula::untils(rng.between(30, 39), 40);
        places(rng, Question::of(Table::largest(rng, All), untils), 10_000, 3_000)
    }),
    kind("build", "many-edges", 20, |rng| {
        let untils = Formula::untils(rng.between(1, 8), 4);
        let question = Question::of(Table::ring(rng, 40, 600), untils);
        places(rng, question, 400, 30_000)
    }),
];

/// The labels of so many steps from the start, 0 where a state has none.
fn walk(rng: &Rng, table: &Table, length: usize) -> Vec<u8> {
    let mut state = table.start as u8;
    let mut step = || {
        let exits: Vec<_> = table.steps.range([state, 0, 0]..=[state, 255, 255]).collect();
        let [_, label, to] = if exits.is_empty() { [state, 0, state] } else { *rng.pick(&exits) };
        state = to;
        label
    };
    (0..length).map(|_| step()).collect()
}

fn random(rng: &Rng, table: &Table, length: usize) -> Vec<u8> {
    (0..length).map(|_| rng.below(table.labels() + 1) as u8).collect()
}

fn ask(question: Question, word: Vec<u8>) -> Input {
    Input::Accepts { table: question.table_bytes, formula: question.formula_bytes, word }
}

/// A short word along a path, or by chance.
pub fn accepts(rng: &Rng, question: Question) -> Input {
    let length = rng.below(7);
    let word = if rng.one_in(4) { random } else { walk }(rng, &question.table, length);
    ask(question, word)
}

/// A path and a formula that it explains; now and then a letter is another one.
fn explained(rng: &Rng, exits: Exits, class: u8) -> Input {
    let table = Table::small(rng, exits);
    let mut word = walk(rng, &table, rng.below(9));
    let formula = Formula::explained_by(rng, class, &word, table.labels());
    if rng.one_in(5) && !word.is_empty() {
        let at = rng.below(word.len());
        word[at] = rng.below(table.labels() + 1) as u8;
    }
    ask(Question::of(table, formula), word)
}

fn unrelated(rng: &Rng, exits: Exits) -> Input {
    let question = either(rng, Table::small(rng, exits));
    let word = random(rng, &question.table, rng.below(12));
    ask(question, word)
}

/// A path of so many steps; half the formulas can go on for as long.
fn long(rng: &Rng, exits: Exits, length: usize) -> Input {
    let table = Table::small(rng, exits);
    let word = walk(rng, &table, length);
    let labels = table.labels();
    match rng.one_in(2) {
        true => ask(Question::of(table, Formula::untils(rng.between(1, 4), labels)), word),
        false => ask(either(rng, table), word),
    }
}

/// Letters above the label count, at any place, the last and the first among them.
fn above(rng: &Rng, length: usize, letter: fn(&Rng, u8) -> u8) -> Input {
    let question = either(rng, Table::small(rng, All));
    let mut word = walk(rng, &question.table, length);
    for _ in 0..rng.between(1, 2) {
        let at = rng.pick(&[0, length - 1, rng.below(length), rng.below(length)]);
        word[at] = letter(rng, question.table.labels() as u8);
    }
    ask(question, word)
}

/// Never 99.
fn letter_above(rng: &Rng, labels: u8) -> u8 {
    rng.pick(&[labels + 1, labels + 1, 40, 41, 64, 98, 100, 255])
}

pub const ACCEPTS: [Kind; 20] = [
    kind("accepts", "explained-with-exits-class-1", 1_280, |rng| explained(rng, All, 1)),
    kind("accepts", "explained-with-exits-class-2", 1_200, |rng| explained(rng, All, 2)),
    kind("accepts", "explained-some-without-class-1", 1_280, |rng| explained(rng, Lacking, 1)),
    kind("accepts", "explained-some-without-class-2", 1_200, |rng| explained(rng, Lacking, 2)),
    kind("accepts", "random-with-exits", 700, |rng| unrelated(rng, All)),
    kind("accepts", "random-some-without", 700, |rng| unrelated(rng, Lacking)),
    kind("accepts", "empty-with-exits", 400, |rng| long(rng, All, 0)),
    kind("accepts", "empty-some-without", 400, |rng| long(rng, Lacking, 0)),
    kind("accepts", "one-letter-with-exits", 400, |rng| long(rng, All, 1)),
    kind("accepts", "one-letter-some-without", 400, |rng| long(rng, Lacking, 1)),
    kind("accepts", "any-length-with-exits", 500, |rng| long(rng, All, rng.below(MAX_WORD))),
    kind("accepts", "any-length-some-without", 500, |rng| long(rng, Lacking, rng.below(MAX_WORD))),
    kind("accepts", "1023-letters", 100, |rng| long(rng, All, MAX_WORD - 1)),
    kind("accepts", "1024-letters", 100, |rng| long(rng, All, MAX_WORD)),
    kind("accepts", "1025-letters", 200, |rng| long(rng, All, MAX_WORD + 1)),
    kind("accepts", "far-too-long", 30, |rng| long(rng, All, rng.pick(&[2_048, 5_000, 70_000]))),
    kind("accepts", "letter-above", 800, |rng| above(rng, rng.between(1, 9), letter_above)),
    kind("accepts", "letter-above-long", 100, |rng| {
        above(rng, rng.between(MAX_WORD - 1, MAX_WORD + 2), letter_above)
    }),
    kind("accepts", "letter-99", 400, |rng| above(rng, rng.between(1, 9), |_, _| 99)),
    kind("accepts", "largest-untils", 50, |rng| {
        let untils = Formula::untils(rng.between(1, 39), 40);
        let table = Table::largest(rng, All);
        let word = walk(rng, &table, rng.below(200));
        ask(Question::of(table, untils), word)
    }),
];

/// Both texts of a question, a word and places.
fn texts(rng: &Rng, question: Question) -> Input {
    let (rows, edges) = room(rng, &question);
    let word = walk(rng, &question.table, rng.below(7));
    Input::Texts {
        formula: spaced(rng, &question.formula.tokens(rng, &question.table.names), 1),
        table: question.table.text(),
        rows: Lent::drawn(rng, rows),
        edges: Lent::drawn(rng, edges),
        word,
    }
}

fn faulty(rng: &Rng, fault: fn(&Rng, &mut Vec<u8>, &mut Vec<u8>)) -> Input {
    let question = either(rng, Table::small(rng, All));
    let Input::Texts { mut table, mut formula, rows, edges, word } = texts(rng, question) else {
        unreachable!("both texts");
    };
    fault(rng, &mut table, &mut formula);
    Input::Texts { table, formula, rows, edges, word }
}

pub const TEXTS: [Kind; 8] = [
    kind("texts", "small-with-exits-class-1", 1_000, |rng| texts(rng, small(rng, All, 1))),
    kind("texts", "small-with-exits-class-2", 800, |rng| texts(rng, small(rng, All, 2))),
    kind("texts", "small-some-without-class-1", 1_000, |rng| texts(rng, small(rng, Lacking, 1))),
    kind("texts", "small-some-without-class-2", 800, |rng| texts(rng, small(rng, Lacking, 2))),
    kind("texts", "medium-with-exits", 300, |rng| {
        texts(rng, of_class(rng, Table::medium(rng, All), 1))
    }),
    kind("texts", "medium-some-without", 300, |rng| {
        texts(rng, of_class(rng, Table::medium(rng, Lacking), 1))
    }),
    kind("texts", "table-damaged", 400, |rng| {
        faulty(rng, |rng, table, _| {
            *table = damage::damaged(rng, table.clone(), damage::base_byte);
        })
    }),
    kind("texts", "formula-damaged", 400, |rng| {
        faulty(rng, |rng, _, formula| {
            *formula = damage::damaged(rng, formula.clone(), damage::base_byte);
        })
    }),
];
