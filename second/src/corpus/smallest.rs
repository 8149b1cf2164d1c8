//! The corpus `smallest`, whose answers `corpus/smallest.txt` holds: smallest automata, by their
//! sets of rows, at 255 to 257 sets and far more, without words, with idle steps beside others;
//! what is refused before. Like the corpus `base`, whose random numbers, tables and formulas it
//! uses, it is left alone.

use super::formulas::{Formula, NEXT, NOT, TRUE, UNTIL, UNTIL_THEN};
use super::questions::{Question, damaged_table, either, small};
use super::rng::Rng;
use super::tables::Exits::{All, Any, Lacking};
use super::tables::{Table, names};
use super::{Input, Kind, Lent, damage, kind, refused};

/// So many bytes are lent for the automaton and for work.
const SMALLEST: usize = 32_516;
const WORK: usize = 524_288;

pub const KINDS: [Kind; 51] = [
    kind("smallest", "m", 150, |rng| ask(rng, either(rng, Table::m(rng, Any)))),
    kind("smallest", "small-with-exits-class-1", 500, |rng| ask(rng, small(rng, All, 1))),
    kind("smallest", "small-with-exits-class-2", 300, |rng| ask(rng, small(rng, All, 2))),
    kind("smallest", "small-some-without-class-1", 500, |rng| ask(rng, small(rng, Lacking, 1))),
    kind("smallest", "small-some-without-class-2", 300, |rng| ask(rng, small(rng, Lacking, 2))),
    kind("smallest", "medium", 200, |rng| ask(rng, either(rng, Table::medium(rng, Any)))),
    kind("smallest", "silent-loops", 200, |rng| ask(rng, either(rng, Table::silent_loops(rng)))),
    kind("smallest", "no-labels", 150, |rng| {
        ask(rng, either(rng, Table::without_labels(rng, Any)))
    }),
    kind("smallest", "no-transitions", 100, |rng| {
        ask(rng, either(rng, Table::drawn(rng, Any, rng.between(1, 6), rng.between(1, 4), 0)))
    }),
    kind("smallest", "40-nodes", 100, |rng| {
        let table = Table::small(rng, Any);
        let formula = Formula::drawn(rng, rng.between(1, 2) as u8, 40, table.labels());
        ask(rng, Question::of(table, formula))
    }),
    kind("smallest", "largest", 20, |rng| ask(rng, either(rng, Table::largest(rng, Any)))),
    kind("smallest", "ring-and-steps-aside", 40, |rng| {
        ask(rng, either(rng, Table::ring(rng, 256, rng.below(20))))
    }),
    kind("smallest", "many-steps", 400, |rng| ask(rng, many_steps(rng, Any))),
    kind("smallest", "idle-beside-others", 300, |rng| ask(rng, many_steps(rng, Lacking))),
    kind("smallest", "no-words", 100, |rng| {
        let table = Table::small(rng, Any);
        let until = until(&table);
        ask(rng, of_heads(table, &[until, (NEXT, 0, 0)]))
    }),
    kind("smallest", "all-words", 100, |rng| {
        let table = loops(rng, rng.between(1, 4), rng.between(1, 8));
        let until = until(&table);
        ask(rng, of_heads(table, &[(NOT, 0, 0), (NOT, 0, 0), until][2 * rng.below(2)..]))
    }),
    kind("smallest", "all-words-of-idle-steps", 50, |rng| {
        let table = Table::drawn(rng, Any, rng.between(1, 4), rng.between(1, 4), 0);
        let until = until(&table);
        ask(rng, of_heads(table, &[until]))
    }),
    kind("smallest", "loops-up-to-128-sets", 100, |rng| {
        ask(rng, from_the_end(rng, 0, rng.between(1, 7), 3))
    }),
    kind("smallest", "loops-256-sets", 20, |rng| ask(rng, from_the_end(rng, 0, 8, 2))),
    kind("smallest", "loops-256-sets-40-labels", 5, |rng| {
        lend(rng, from_the_end(rng, 0, 8, 40), [3 * 400, 5 * 400, SMALLEST, WORK])
    }),
    kind("smallest", "ring-255-sets", 20, |rng| ask(rng, ring(rng, 255))),
    kind("smallest", "ring-256-sets", 30, |rng| ask(rng, ring(rng, 256))),
    kind("smallest", "ring-of-a-pattern", 60, |rng| {
        let period = rng.between(1, 6);
        let pattern = damage::bytes(rng, period, |rng| rng.between(1, 2) as u8);
        ask(rng, around(rng, 0, period * rng.between(1, 10), &pattern))
    }),
    kind("smallest", "line-up-to-60-sets", 80, |rng| ask(rng, line(rng, rng.between(3, 60)))),
    kind("smallest", "line-256-sets", 15, |rng| ask(rng, line(rng, 256))),
    kind("smallest", "most-rows", 4, |rng| {
        let (rows, edges) = (3 * 9_750, 5 * 786_240);
        lend(rng, most_rows(rng), [rows, edges, SMALLEST, WORK])
    }),
    kind("smallest", "smallest-longer", 100, |rng| {
        let question = many_steps(rng, Any);
        let [rows, edges] = room(&question);
        lend(rng, question, [rows, edges, damage::longer(rng, SMALLEST), WORK])
    }),
    kind("smallest", "work-longer", 100, |rng| {
        let question = many_steps(rng, Any);
        let [rows, edges] = room(&question);
        lend(rng, question, [rows, edges, SMALLEST, damage::longer(rng, WORK)])
    }),
    kind("smallest", "bad-loops-257-sets", 30, |rng| ask(rng, from_the_end(rng, 1, 8, 3))),
    kind("smallest", "bad-loops-512-sets", 20, |rng| ask(rng, from_the_end(rng, 0, 9, 3))),
    kind("smallest", "bad-loops-16384-sets", 20, |rng| ask(rng, from_the_end(rng, 0, 14, 3))),
    kind("smallest", "bad-ring-257-sets", 40, |rng| ask(rng, ring(rng, 257))),
    kind("smallest", "bad-line-257-sets", 20, |rng| ask(rng, line(rng, 257))),
    kind("smallest", "no-places", 100, |rng| lend(rng, any(rng), [0, 0, SMALLEST, WORK])),
    kind("smallest", "few-rows", 250, |rng| {
        lend(rng, any(rng), [rng.below(3 * 6), 5 * 400, SMALLEST, WORK])
    }),
    kind("smallest", "few-edges", 250, |rng| {
        lend(rng, any(rng), [3 * 400, rng.below(5 * 8), SMALLEST, WORK])
    }),
    kind("smallest", "257-sets-few-rows", 30, |rng| {
        lend(rng, ring(rng, 257), [3 * 257 - 1, 5 * 256, SMALLEST, WORK])
    }),
    kind("smallest", "257-sets-few-edges", 30, |rng| {
        lend(rng, ring(rng, 257), [3 * 257, 5 * 256, SMALLEST, WORK])
    }),
    kind("smallest", "smallest-short", 100, |rng| {
        lend(rng, any(rng), [3 * 400, 5 * 400, damage::shorter(rng, SMALLEST), WORK])
    }),
    kind("smallest", "smallest-as-long-as-used", 60, |rng| {
        lend(rng, any(rng), [3 * 400, 5 * 400, rng.between(5, 60), WORK])
    }),
    kind("smallest", "work-short", 100, |rng| {
        lend(rng, any(rng), [3 * 400, 5 * 400, SMALLEST, damage::shorter(rng, WORK)])
    }),
    kind("smallest", "smallest-and-work-short", 60, |rng| {
        let lengths = [SMALLEST, WORK].map(|length| damage::shorter(rng, length));
        lend(rng, any(rng), [3 * 400, 5 * 400, lengths[0], lengths[1]])
    }),
    kind("smallest", "formula-and-smallest-short", 40, |rng| {
        let question = any(rng).resized(rng, |_, length| length, damage::shorter);
        lend(rng, question, [3 * 400, 5 * 400, damage::shorter(rng, SMALLEST), WORK])
    }),
    kind("smallest", "formula-and-work-short", 40, |rng| {
        let question = any(rng).resized(rng, |_, length| length, damage::shorter);
        lend(rng, question, [3 * 400, 5 * 400, SMALLEST, damage::shorter(rng, WORK)])
    }),
    kind("smallest", "foreign-smallest-short", 60, |rng| {
        lend(rng, foreign(rng), [3 * 400, 5 * 400, damage::shorter(rng, SMALLEST), WORK])
    }),
    kind("smallest", "foreign-work-short", 60, |rng| {
        lend(rng, foreign(rng), [3 * 400, 5 * 400, SMALLEST, damage::shorter(rng, WORK)])
    }),
    kind("smallest", "foreign-few-rows", 60, |rng| lend(rng, foreign(rng), [2, 4, SMALLEST, WORK])),
    kind("smallest", "few-rows-work-short", 40, |rng| {
        lend(rng, any(rng), [2, 4, SMALLEST, damage::shorter(rng, WORK)])
    }),
    kind("smallest", "257-sets-smallest-short", 20, |rng| {
        lend(rng, ring(rng, 257), [3 * 257, 5 * 257, damage::shorter(rng, SMALLEST), WORK])
    }),
    kind("smallest", "257-sets-work-short", 20, |rng| {
        lend(rng, ring(rng, 257), [3 * 257, 5 * 257, SMALLEST, damage::shorter(rng, WORK)])
    }),
    kind("smallest", "257-sets-formula-damaged", 20, |rng| {
        let mut question = ring(rng, 257);
        question.formula_bytes[680] = 1;
        lend(rng, question, [3 * 257, 5 * 257, SMALLEST, WORK])
    }),
];

pub fn kinds() -> impl Iterator<Item = Kind> {
    KINDS.into_iter().chain(refused("smallest", ask))
}

/// So many bytes for rows, edges, the automaton and work.
fn lend(rng: &Rng, question: Question, lengths: [usize; 4]) -> Input {
    let [rows, edges, smallest, work] = lengths.map(|length| Lent::drawn(rng, length));
    let Question { table_bytes: table, formula_bytes: formula, .. } = question;
    Input::Smallest { table, formula, rows, edges, smallest, work }
}

/// Places for every position and for about eight edges of each.
fn room(question: &Question) -> [usize; 2] {
    let rows = question.table.states * (question.formula.nodes.len() + 1);
    [3 * rows.min(1_500) + 1, 40 * rows.min(1_500) + 3]
}

fn ask(rng: &Rng, question: Question) -> Input {
    let [rows, edges] = room(&question);
    lend(rng, question, [rows, edges, SMALLEST, WORK])
}

fn any(rng: &Rng) -> Question {
    either(rng, Table::small(rng, Any))
}

fn foreign(rng: &Rng) -> Question {
    let mut question = any(rng);
    question.table_bytes = damaged_table(rng, &question.table);
    question
}

type Node = (u8, u64, u64);

fn all(table: &Table) -> u64 {
    ((1 << table.labels()) - 1) << 1
}

fn until(table: &Table) -> Node {
    (UNTIL, all(table), 0)
}

/// Each node the arm of the one before, `T` behind the last.
fn of_heads(table: Table, heads: &[Node]) -> Question {
    let mut formula = Formula::untils(heads.len(), table.labels());
    formula.nodes = [heads, &[(TRUE, 0, 0)]].concat();
    Question::of(table, formula)
}

/// A step or none, then untils, over a small table in which a label often leads to several states.
fn many_steps(rng: &Rng, exits: super::tables::Exits) -> Question {
    let states = rng.between(2, 6);
    let table = Table::drawn(rng, exits, states, rng.between(1, 3), 3 * states);
    match rng.below(4) {
        0 => either(rng, table),
        1 => {
            let heads = [(NEXT, all(&table), 0), until(&table)];
            of_heads(table, &heads)
        }
        2 => {
            let label = 1 << rng.between(1, table.labels());
            let heads = [(UNTIL_THEN, all(&table), label), until(&table)];
            of_heads(table, &heads)
        }
        _ => {
            let labels = table.labels();
            Question::of(table, Formula::untils(rng.between(1, 4), labels))
        }
    }
}

/// Of these steps.
fn over(rng: &Rng, states: usize, labels: usize, steps: Vec<[u8; 3]>) -> Table {
    let names = names(rng, labels, 12);
    Table { states, start: rng.below(states), names, steps: steps.into_iter().collect() }
}

/// Each state has a loop by each label.
fn loops(rng: &Rng, states: usize, labels: usize) -> Table {
    let steps = (0..states).flat_map(|state| (1..=labels).map(move |label| [state, label, state]));
    over(rng, states, labels, steps.map(|step| step.map(|number| number as u8)).collect())
}

/// So many steps, then words with the first label at a place counted from the end: 2 to the power
/// of it.
fn from_the_end(rng: &Rng, first: usize, places: usize, labels: usize) -> Question {
    let table = loops(rng, rng.between(1, 3), labels);
    let any = (NEXT, all(&table), 0);
    let mut heads = vec![any; first];
    heads.extend([until(&table), (NEXT, 2, 0)]);
    heads.extend(vec![any; places - 1]);
    of_heads(table, &heads)
}

/// So many sets.
fn ring(rng: &Rng, sets: usize) -> Question {
    let first = sets.saturating_sub(256) + rng.below(3);
    let pattern = damage::bytes(rng, rng.pick(&[1, 251]), |rng| rng.between(1, 2) as u8);
    around(rng, first, sets - first, &pattern)
}

/// So many steps, then round a ring, by the labels of a pattern again and again.
fn around(rng: &Rng, first: usize, states: usize, pattern: &[u8]) -> Question {
    let step =
        |from: usize| [from as u8, pattern[from % pattern.len()], ((from + 1) % states) as u8];
    let table = over(rng, states, 2, (0..states).map(step).collect());
    let heads = [vec![(NEXT, all(&table), 0); first], vec![until(&table)]].concat();
    of_heads(table, &heads)
}

/// By one label to the end of a line, and there by another.
fn line(rng: &Rng, sets: usize) -> Question {
    let last = (sets - 2) as u8;
    let mut steps: Vec<[u8; 3]> = (0..last).map(|from| [from, 1, from + 1]).collect();
    steps.push([last, 2, rng.below(sets - 1) as u8]);
    let table = Table { start: 0, ..over(rng, sets - 1, 2, steps) };
    of_heads(table, &[(UNTIL_THEN, 2, 4)])
}

/// 9,750 rows and 786,240 edges of 251 sets: 39 untils over 250 states in a ring, with 1,008 steps
/// of which no two leave a state by one label.
fn most_rows(rng: &Rng) -> Question {
    let mut steps: Vec<[u8; 3]> = Vec::new();
    for from in 0..250 {
        let first = rng.below(41);
        let count = if from < 8 { 5 } else { 4 };
        for at in 0..count {
            let to = if at == 0 { (from + 1) % 250 } else { rng.below(250) };
            steps.push([from, (first + 7 * at) % 41, to].map(|number| number as u8));
        }
    }
    let table = over(rng, 250, 40, steps);
    Question::of(table, Formula::untils(39, 40))
}
