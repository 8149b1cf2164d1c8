//! Questions by the sets of rows that their words lead to, and by their smallest automata: without
//! words, of all words, of 255 to 257 sets and of far more, of the most states, told apart late or
//! never.

use std::collections::BTreeMap;

use super::kinds::{self, Kinds, Way, must, way};
use super::questions::{self, Question};
use super::rng::Rng;
use super::{formulas, tables};
use crate::formula::{Condition, Formula, MAX_NODES, Node, Set};
use crate::listing::Listing;
use crate::smallest::{Automaton, MAX_SETS, of_sets};
use crate::table::{IDLE, MAX_LABELS, MAX_STATES, MAX_TRANSITIONS, SILENT, Step, Table};
use crate::tally::Expected;

const PART: &str = "sets of rows";
pub const LONG_LISTING: &str = "a chain of untils, over 65,535 edges";

pub const QUESTIONS: [Way<(), Question>; 24] = [
    way("any, with many steps for its states", 60, &[0], |rng, ()| small(rng)),
    way("the same of up to 40 states", 15, &[0, 20], |rng, ()| {
        let states = rng.between(8, 40);
        dense(rng, states)
    }),
    way("no words", 20, &[0], |rng, ()| {
        drawn(rng, small, |_, smallest| *smallest == Automaton::bare())
    }),
    way("no words, though the root steps back to itself", 15, &[0], |rng, ()| {
        let table = small(rng).table;
        let never = [until(Set::all(table.labels())), next(Set::EMPTY)];
        asked(rng, table, &never)
    }),
    way("all words", 15, &[0], |rng, ()| {
        let (states, labels) = (rng.between(1, 5), rng.between(1, 8));
        let table = looping(rng, states, labels);
        asked(rng, table, &[until(Set::all(labels))])
    }),
    way("all words of idle steps", 10, &[0], |rng, ()| {
        let (states, labels) = (rng.between(1, 5), rng.below(4));
        let table = over(rng, states, labels, []);
        asked(rng, table, &[until(Set::all(labels))])
    }),
    way("a final start", 20, &[0], |rng, ()| drawn(rng, small, is_final_start)),
    way("99 beside other labels in one set", 25, &[0], |rng, ()| {
        drawn(rng, idle_beside_others, has_idle_beside_others)
    }),
    way("fewer states than sets", 20, &[0], |rng, ()| {
        drawn(rng, small, |sets, smallest| smallest.states() < sets.states())
    }),
    way("loops, up to 128 sets", 15, &[0], |rng, ()| {
        let places = rng.between(1, 7);
        from_the_end(rng, 0, places, 4)
    }),
    way("loops, 256 sets and states", 4, &[0], |rng, ()| from_the_end(rng, 0, 8, 3)),
    way("loops, 256 sets and states, the most letters", 1, &[0], |rng, ()| {
        from_the_end(rng, 0, 8, MAX_LABELS)
    }),
    way("loops, 257 sets", 6, &[20], |rng, ()| from_the_end(rng, 1, 8, 3)),
    way("loops, far more sets", 6, &[20], |rng, ()| {
        let places = rng.between(9, 14);
        from_the_end(rng, 0, places, 3)
    }),
    way("a ring, 255 sets", 4, &[0], |rng, ()| ring(rng, 255)),
    way("a ring, 256 sets", 6, &[0], |rng, ()| ring(rng, 256)),
    way("a ring, 257 sets", 8, &[20], |rng, ()| ring(rng, 257)),
    way("a ring of a pattern, few states", 6, &[0], |rng, ()| {
        let period = rng.between(1, 6);
        let pattern: Vec<u8> = (0..period).map(|_| rng.between(1, 2) as u8).collect();
        let states = period * rng.between(1, 64 / period);
        around(rng, 0, states, &pattern)
    }),
    way("a line, told apart by its end alone", 12, &[0], |rng, ()| {
        let sets = rng.between(3, 60);
        line(rng, sets)
    }),
    way("a line, 256 sets told apart by its end alone", 3, &[0], |rng, ()| line(rng, 256)),
    way("a line, 257 sets", 4, &[20], |rng, ()| line(rng, 257)),
    way("256 states, 1,024 transitions, 40 nodes, few rows", 2, &[0], |rng, ()| few_rows(rng)),
    way(LONG_LISTING, 1, &[0], |rng, ()| {
        let states = rng.between(20, 40);
        chained(rng, states, 100)
    }),
    way("an until for long words", 20, &[0], |rng, ()| {
        questions::with_long_words(rng, &mut Kinds::default(), MAX_SETS)
    }),
];

fn small(rng: &mut Rng) -> Question {
    let states = rng.between(1, 7);
    dense(rng, states)
}

/// With many steps for its states, so that words lead to several rows.
fn dense(rng: &mut Rng, states: usize) -> Question {
    let kinds = &mut Kinds::default();
    let labels = rng.below(4);
    let transitions = rng.between(states, 4 * states);
    let drawn = tables::with_counts(rng, kinds, states, labels, transitions);
    let table = tables::with_any_exits(rng, kinds, &drawn);
    let nodes = rng.between(3, 12);
    let formula = match rng.one_in(2) {
        true => formulas::until(rng, nodes, &table),
        false => {
            let class = formulas::class(rng, nodes);
            formulas::formula(rng, Some(class), nodes, &table)
        }
    };
    Question { table, formula }
}

/// Drawn until the sets, at most 256, and the smallest automaton are so.
fn drawn(
    rng: &mut Rng,
    draw: fn(&mut Rng) -> Question,
    is_so: fn(&Automaton, &Automaton) -> bool,
) -> Question {
    loop {
        let question = draw(rng);
        let listing = Listing::of(&question.table, &question.formula);
        let sets = of_sets(&listing, MAX_SETS);
        if sets.is_some_and(|sets| is_so(&sets, &sets.merged())) {
            return question;
        }
    }
}

/// Some word leads to a state without exits, and to another one.
fn idle_beside_others(rng: &mut Rng) -> Question {
    let (states, labels) = (rng.between(2, 5), rng.between(1, 3));
    let still = rng.below(states) as u8;
    let other = |rng: &mut Rng| ((usize::from(still) + rng.between(1, states - 1)) % states) as u8;
    let [start, leaving] = [(); 2].map(|()| other(rng));
    let label = rng.below(labels + 1) as u8;
    let exit =
        Step { from: leaving, label: rng.below(labels + 1) as u8, to: rng.below(states) as u8 };
    let into = [still, leaving].map(|to| Step { from: start, label, to });
    let table = over(rng, states, labels, into.into_iter().chain([exit]));
    let all = Set::all(labels);
    let heads = match rng.below(4) {
        0 => vec![until(all)],
        1 => vec![until(all), Node::Next(Condition::Silent, 0)],
        2 => vec![next(all), until(all)],
        _ => vec![Node::Not(0), Node::Not(0), until(all), until(all)],
    };
    asked(rng, Table { start, ..table }, &heads)
}

fn has_idle_beside_others(_: &Automaton, smallest: &Automaton) -> bool {
    smallest.steps.iter().any(|steps| steps.contains_key(&IDLE) && steps.len() > 1)
}

fn is_final_start(_: &Automaton, smallest: &Automaton) -> bool {
    smallest.finals[0] && smallest.states() > 1
}

/// Arms are set by where they stand.
fn until(set: Set) -> Node {
    Node::Until(set, 0)
}

fn next(set: Set) -> Node {
    Node::Next(Condition::Among(set), 0)
}

/// Each node the arm of the one before, `T` behind the last. An even number of `~` may stand among
/// them, where they change no set: behind an until that is the root, else before all.
fn asked(rng: &mut Rng, table: Table, heads: &[Node]) -> Question {
    let most = (MAX_NODES - 1 - heads.len()) / 2;
    let negations = 2 * rng.pick(&[0, 0, 0, 0, most.min(1), most]);
    let (before, behind) = heads.split_at(matches!(heads[0], Node::Until(..)).into());
    let heads = [before, &vec![Node::Not(0); negations], behind].concat();
    let nodes = heads.iter().enumerate().map(|(number, node)| node.with_arms(|_| number + 1));
    Question { table, formula: Formula { nodes: nodes.chain([Node::True]).collect() } }
}

/// Of these steps and any start.
fn over(
    rng: &mut Rng,
    states: usize,
    labels: usize,
    steps: impl IntoIterator<Item = Step>,
) -> Table {
    let none = tables::with_counts(rng, &mut Kinds::default(), states, labels, 0);
    tables::with_steps(&none, &[], steps.into_iter().collect())
}

/// Each state has a loop by each label, and all have a silent one or none.
fn looping(rng: &mut Rng, states: usize, labels: usize) -> Table {
    let first = if rng.one_in(3) { SILENT } else { 1 };
    let loops =
        |state| (first..=labels as u8).map(move |label| Step { from: state, label, to: state });
    over(rng, states, labels, (0..states).flat_map(|state| loops(state as u8)))
}

/// So many steps by any label, then: some letter of a set stands at a place counted from the end.
/// There are as many sets as subsets of the places behind the until, and one for each of the first
/// steps.
fn from_the_end(rng: &mut Rng, first: usize, places: usize, most_labels: usize) -> Question {
    let labels = rng.between(2.max(most_labels / 2), most_labels);
    let states = rng.pick(&[1, 1, 2, 9]);
    let mut table = looping(rng, states, labels);
    if most_labels < MAX_LABELS && rng.one_in(8) {
        // The last of the most states.
        let last = |step: &Step| Step { from: u8::MAX, to: u8::MAX, ..*step };
        let loops = table.transitions.iter().filter(|step| step.from == 0).map(last).collect();
        table = Table { states: MAX_STATES, start: u8::MAX, transitions: loops, ..table };
    }
    let all = Set::all(labels);
    let some = Set(all.0 & all.0 >> rng.between(1, labels - 1));
    let mut heads = vec![next(all); first];
    heads.extend([until(all), next(some)]);
    heads.extend(vec![next(all); places - 1]);
    asked(rng, table, &heads)
}

/// So many sets, most of them around a ring.
fn ring(rng: &mut Rng, sets: usize) -> Question {
    let least = sets.saturating_sub(MAX_STATES);
    let first = rng.pick(&[least, least, least + 1, least + 3]);
    let labels = rng.between(1, 2);
    let pattern: Vec<u8> = match rng.one_in(2) {
        true => vec![1],
        false => (0..sets - first).map(|_| rng.between(1, labels) as u8).collect(),
    };
    around(rng, first, sets - first, &pattern)
}

/// So many steps, then round a ring of so many states, by the labels of a pattern again and again.
fn around(rng: &mut Rng, first: usize, states: usize, pattern: &[u8]) -> Question {
    let to = |from: usize| ((from + 1) % states) as u8;
    let label = |from: usize| pattern[from % pattern.len()];
    let step = |from: usize| Step { from: from as u8, label: label(from), to: to(from) };
    let labels = rng.pick(&[2, 2, 5, MAX_LABELS]);
    let table = over(rng, states, labels, (0..states).map(step));
    let all = Set::all(labels);
    let heads = [vec![next(all); first], vec![until(all)]].concat();
    let table = renumbered(rng, &table);
    asked(rng, table, &heads)
}

/// By one label to the end of a line, and there by another: all sets have different words.
fn line(rng: &mut Rng, sets: usize) -> Question {
    let states = sets - 1;
    let step = |from: usize| Step { from: from as u8, label: 1, to: from as u8 + 1 };
    let end = Step { from: (states - 1) as u8, label: 2, to: rng.below(states) as u8 };
    let labels = rng.pick(&[2, 2, MAX_LABELS]);
    let table = over(rng, states, labels, (0..states - 1).map(step).chain([end]));
    let table = renumbered(rng, &Table { start: 0, ..table });
    asked(rng, table, &[Node::UntilThen(Set::of(1), Set::of(2), 0)])
}

/// A chain of untils over a table in which no two steps leave a state by one label: 39 rows for each
/// state, 780 edges for each step, one set for each state and one for the start.
fn chained(rng: &mut Rng, states: usize, steps: usize) -> Question {
    let mut drawn = BTreeMap::new();
    for from in 0..states {
        drawn.insert((from, rng.below(MAX_LABELS + 1)), (from + 1) % states);
    }
    while drawn.len() < steps {
        let from = (rng.below(states), rng.below(MAX_LABELS + 1));
        drawn.entry(from).or_insert(rng.below(states));
    }
    let step = |((from, label), to)| Step { from: from as u8, label: label as u8, to: to as u8 };
    let table = over(rng, states, MAX_LABELS, drawn.into_iter().map(step));
    Question { table, formula: questions::untils(Set::all(MAX_LABELS)) }
}

/// A step or three behind as many `~` as there may be, over a largest table.
fn few_rows(rng: &mut Rng) -> Question {
    let labels = rng.pick(&[1, 3, MAX_LABELS]);
    let kinds = &mut Kinds::default();
    let table = tables::with_counts(rng, kinds, MAX_STATES, labels, MAX_TRANSITIONS);
    let steps = vec![next(Set::all(labels)); rng.pick(&[1, 3])];
    let heads = [vec![Node::Not(0); MAX_NODES - 1 - steps.len()], steps].concat();
    asked(rng, table, &heads)
}

/// 9,750 rows and 786,240 edges, of 251 sets, over a table of the most states, labels and
/// transitions: 250 states and 1,008 transitions are reached.
pub fn longest_listing(rng: &mut Rng) -> Question {
    let Question { mut table, formula } = chained(rng, 250, 1_008);
    let unreached = (table.states..MAX_STATES).cycle().take(MAX_TRANSITIONS - 1_008);
    let step = |(label, from): (usize, usize)| Step { from: from as u8, label: label as u8, to: 0 };
    let steps = unreached.enumerate().map(step).collect();
    table.states = MAX_STATES;
    Question { table: tables::with_steps(&table, &[], steps), formula }
}

/// 256 states with an edge by each of 41 letters: 10,496 edges.
pub fn of_most_states(rng: &mut Rng) -> Question {
    loop {
        let question = from_the_end(rng, 0, 8, MAX_LABELS);
        let loops = question.table.transitions.len() / question.table.states;
        if loops == MAX_LABELS + 1 {
            return question;
        }
    }
}

/// 256 states, told apart one by one from the last.
pub fn of_most_rounds(rng: &mut Rng) -> Question {
    line(rng, MAX_SETS)
}

/// The same table with its states in any order, or as it is.
fn renumbered(rng: &mut Rng, table: &Table) -> Table {
    let mut numbers: Vec<u8> = (0..table.states).map(|state| state as u8).collect();
    if rng.one_in(2) {
        rng.shuffle(&mut numbers);
    }
    let number = |state: u8| numbers[usize::from(state)];
    let step = |step: &Step| Step { from: number(step.from), to: number(step.to), ..*step };
    let steps = table.transitions.iter().map(step).collect();
    let none = Table { start: number(table.start), transitions: Vec::new(), ..table.clone() };
    tables::with_steps(&none, &[], steps)
}

/// What is so of the sets and of the smallest automaton.
struct Sign {
    name: &'static str,
    is_so: fn(&Automaton, &Automaton) -> bool,
}

const SIGN: &str = "smallest automaton";

const fn sign(name: &'static str, is_so: fn(&Automaton, &Automaton) -> bool) -> Sign {
    Sign { name, is_so }
}

const SIGNS: [Sign; 12] = [
    sign("no words", |_, smallest| *smallest == Automaton::bare()),
    sign("one state of one set", |sets, smallest| {
        sets.states() == 1 && smallest.states() == 1 && smallest.finals[0]
    }),
    sign("one state of several sets", |sets, smallest| sets.states() > 1 && smallest.states() == 1),
    sign("several states, of as many sets", |sets, smallest| {
        smallest.states() > 1 && smallest.states() == sets.states()
    }),
    sign("several states, of more sets", |sets, smallest| {
        smallest.states() > 1 && smallest.states() < sets.states()
    }),
    sign("a final start and other states", is_final_start),
    sign("a start that is not entered again", |_, smallest| {
        smallest.states() > 1 && smallest.edges().all(|(_, _, target)| target > 0)
    }),
    sign("a start that is", |_, smallest| {
        smallest.states() > 1 && smallest.edges().any(|(_, _, target)| target == 0)
    }),
    sign("99 beside other labels", has_idle_beside_others),
    sign("0 and 99 at one state", |_, smallest| {
        smallest.steps.iter().any(|steps| [SILENT, IDLE].iter().all(|by| steps.contains_key(by)))
    }),
    sign("two letters to one state", |_, smallest| {
        smallest.steps.iter().any(|steps| {
            let mut targets: Vec<usize> = steps.values().copied().collect();
            targets.sort_unstable();
            targets.windows(2).any(|pair| pair[0] == pair[1])
        })
    }),
    sign("a state without edges", |_, smallest| {
        smallest.states() > 1 && smallest.steps.iter().any(|steps| steps.is_empty())
    }),
];

/// The signs of a listing; of a long one they are not looked for.
pub fn note(kinds: &mut Kinds, listing: &Listing) {
    if listing.edges.len() > 2_000 {
        return;
    }
    if let Some(sets) = of_sets(listing, MAX_SETS) {
        let smallest = sets.merged();
        for sign in SIGNS.iter().filter(|sign| (sign.is_so)(&sets, &smallest)) {
            kinds.note(SIGN, sign.name);
        }
    }
}

/// Any question, or one made for its sets of rows.
pub fn question(rng: &mut Rng, kinds: &mut Kinds) -> Question {
    match rng.one_in(3) {
        true => kinds.make(rng, PART, &QUESTIONS, &()),
        false => questions::of_any_size(rng, kinds, 100, 1_000),
    }
}

/// All that `note` must have seen.
pub fn expected_signs() -> impl Iterator<Item = Expected> {
    SIGNS.iter().map(|sign| must(SIGN, sign.name, &[0]))
}

/// All that `question` and `note` must have made. Most of the largest have too many sets.
pub fn expected() -> Vec<Expected> {
    let mut any = questions::expected();
    let largest = any.iter_mut().filter(|expected| expected.kind.name == questions::LARGEST);
    largest.for_each(|expected| expected.outcomes.clear());
    any.into_iter().chain(kinds::expected(PART, &QUESTIONS)).chain(expected_signs()).collect()
}

#[cfg(test)]
mod tests {
    use super::*;

    /// How many sets, at most 600, and states; of a few questions made so.
    fn counts(name: &str) -> Vec<(usize, usize)> {
        let way = QUESTIONS.iter().find(|way| way.name == name).expect("a way");
        let counted = |index| {
            let question = (way.make)(&mut Rng::of_input(81, name, index), &());
            let listing = Listing::of(&question.table, &question.formula);
            let sets = of_sets(&listing, 600).expect("at most 600 sets");
            (sets.states(), sets.merged().states())
        };
        (0..40).map(counted).collect()
    }

    #[test]
    fn a_question_named_by_its_sets_has_as_many() {
        for (name, sets) in [
            ("loops, 256 sets and states", 256),
            ("loops, 256 sets and states, the most letters", 256),
            ("loops, 257 sets", 257),
            ("a ring, 255 sets", 255),
            ("a ring, 256 sets", 256),
            ("a ring, 257 sets", 257),
            ("a line, 256 sets told apart by its end alone", 256),
            ("a line, 257 sets", 257),
        ] {
            for (counted, states) in counts(name) {
                assert_eq!(counted, sets, "{name}");
                let are_all = name.contains("states") || name.contains("line");
                assert!(!are_all || states == sets, "{name}: {states}");
            }
        }
    }

    #[test]
    fn the_longest_have_the_most_states_edges_and_rows() {
        let rng = &mut Rng::new(3);
        let listing = |question: Question| Listing::of(&question.table, &question.formula);
        let counts = |listing: &Listing| {
            let sets = of_sets(listing, MAX_SETS).expect("at most 256 sets");
            let smallest = sets.merged();
            [sets.states(), smallest.states(), smallest.edges().count()]
        };
        assert_eq!(counts(&listing(of_most_states(rng))), [256, 256, 10_496]);
        assert_eq!(counts(&listing(of_most_rounds(rng))), [256, 256, 255]);
        let longest = listing(longest_listing(rng));
        assert_eq!((longest.rows.len(), longest.edges.len()), (9_750, 786_240));
        assert_eq!(counts(&longest), [251, 250, 1_008]);
    }

    #[test]
    fn a_ring_of_a_pattern_has_few_states_and_all_words_have_one() {
        let patterns = counts("a ring of a pattern, few states");
        assert!(patterns.iter().all(|&(_, states)| states <= 6));
        assert!(patterns.iter().any(|&(sets, states)| sets > 20 && states > 1));
        for name in ["all words", "all words of idle steps"] {
            assert!(counts(name).iter().all(|&(_, states)| states == 1), "{name}");
        }
    }
}
