//! The smallest deterministic automaton: by its definition, by another method, worked examples,
//! refusals and the bytes that they leave; the baseline writes the same.

mod common;

use std::collections::{BTreeMap, BTreeSet, VecDeque};

use common::{LOOPS, M, ONE_STATE, all_words, refused};
use second::baseline;
use second::entries::{self, EDGE_PLACE, ROW_PLACE};
use second::formula::Formula;
use second::inputs::kinds::Kinds;
use second::inputs::questions::{Question, longest_listing, question};
use second::inputs::rng::{Rng, filled};
use second::inputs::sets;
use second::link::library;
use second::listing::Listing;
use second::prepared::{self, FORMULA_LENGTH, TABLE_LENGTH};
use second::reply::{Refusal, Reply};
use second::smallest::{Automaton, SMALLEST_LENGTH, WORK_LENGTH, of_sets, smallest};
use second::table::{Step, Table};
use second::word;

fn asked(table: &Table, text: &str) -> Listing {
    Listing::of(table, &Formula::read(table, text.as_bytes()).expect("a formula"))
}

fn read(text: &str) -> Table {
    Table::read(text.as_bytes()).expect("a table")
}

/// Of so many states by `a`.
fn ring(states: usize) -> Table {
    let step = |from: usize| Step { from: from as u8, label: 1, to: ((from + 1) % states) as u8 };
    let transitions = (0..states).map(step).collect();
    Table { states, start: 0, names: vec![b"a".to_vec()], transitions }
}

/// One state, with a loop by each of so many labels.
fn loops(labels: usize) -> Table {
    let step = |label| Step { from: 0, label: label as u8, to: 0 };
    let names = (1..=labels).map(|label| format!("l{label}").into_bytes()).collect();
    Table { states: 1, start: 0, names, transitions: (1..=labels).map(step).collect() }
}

fn automaton(finals: &[bool], edges: &[(usize, u8, usize)]) -> Automaton {
    let mut steps = vec![BTreeMap::new(); finals.len()];
    for &(state, letter, target) in edges {
        steps[state].insert(letter, target);
    }
    Automaton { finals: finals.to_vec(), steps }
}

#[test]
fn the_automata_of_m_are_those_worked_by_hand() {
    let table = read(M);
    // `req` any number of times with `ack` behind it, `ack` last.
    let request = smallest(&asked(&table, "EU[*;ack] T")).expect("few sets");
    let edges = [(0, 1, 1), (1, 2, 2), (2, 1, 1)];
    assert_eq!(request, automaton(&[false, false, true], &edges));
    assert_eq!(request.bytes(), [3, 0, 3, 0, 0, 0, 1, 0, 1, 1, 1, 2, 2, 2, 1, 1]);
    // State 2 is reached silently and has no exits.
    let idle = smallest(&asked(&table, "EX[req] EX[.] EU[*] T")).expect("few sets");
    let edges = [(0, 1, 1), (1, 0, 2), (2, 99, 2)];
    assert_eq!(idle, automaton(&[false, false, true], &edges));
}

#[test]
fn an_empty_language_has_one_state_without_edges() {
    for (table, formula) in
        [(M, "EX[ack] T"), (M, "EU[~*;ack] T"), (ONE_STATE, "EU[*] EX[*] T"), (LOOPS, "AX[*] T")]
    {
        let listing = asked(&read(table), formula);
        let found = smallest(&listing).expect("few sets");
        assert_eq!((of_sets(&listing, 1), &found), (Some(Automaton::bare()), &Automaton::bare()));
        assert_eq!(found.bytes(), [1, 0, 0, 0, 0]);
    }
}

#[test]
fn all_words_have_one_final_state() {
    let all = smallest(&asked(&read(LOOPS), "EU[*] T")).expect("few sets");
    assert_eq!(all, automaton(&[true], &[(0, 1, 0), (0, 2, 0), (0, 3, 0)]));
    let idle = smallest(&asked(&read(ONE_STATE), "EU[*] T")).expect("few sets");
    assert_eq!(idle, automaton(&[true], &[(0, 99, 0)]));
    let none = smallest(&asked(&read(LOOPS), "T")).expect("few sets");
    assert_eq!(none, automaton(&[true], &[]));
}

#[test]
fn sets_are_counted_before_they_are_merged() {
    let table = ring(256);
    let listing = asked(&table, "EU[*] T");
    assert_eq!(of_sets(&listing, 300).map(|sets| sets.states()), Some(256));
    assert_eq!(smallest(&listing), Ok(automaton(&[true], &[(0, 1, 0)])));
    let more = asked(&table, "EX[a] EU[*] T");
    assert_eq!(of_sets(&more, 300).map(|sets| sets.states()), Some(257));
    assert_eq!(of_sets(&more, 300).map(|sets| sets.merged().states()), Some(2));
    assert_eq!(smallest(&more), Err(Refusal::SetCount(257)));
    let fewer = smallest(&asked(&ring(255), "EX[a] EU[*] T"));
    assert_eq!(fewer, Ok(automaton(&[false, true], &[(0, 1, 1), (1, 1, 1)])));
}

#[test]
fn the_most_states_are_256_with_an_edge_by_each_letter() {
    let text = format!("EU[*] EX[l1] {}T", "EX[*] ".repeat(7));
    for labels in [2, 40] {
        let listing = asked(&loops(labels), &text);
        let found = smallest(&listing).expect("256 sets");
        assert_eq!((found.states(), found.edges().count()), (256, 256 * labels));
        assert_eq!(of_sets(&listing, 256), Some(found));
    }
    let more = format!("EX[*] {text}");
    assert_eq!(smallest(&asked(&loops(2), &more)), Err(Refusal::SetCount(257)));
}

#[test]
fn the_idle_step_stands_behind_other_labels_of_the_same_set() {
    let text = "     3     2     4     0
     1 a
     2 b
     0     1     1
     0     1     2
     2     0     2
     2     2     2
";
    let found = smallest(&asked(&read(text), "EX[a] EU[*] T")).expect("few sets");
    let edges = [(0, 1, 1), (1, 0, 2), (1, 2, 2), (1, 99, 3), (2, 0, 2), (2, 2, 2), (3, 99, 3)];
    assert_eq!(found, automaton(&[false, true, true, true], &edges));
    assert_eq!(found.bytes()[8..], edges.map(|(from, by, to)| [from as u8, by, to as u8]).concat());
}

/// Small questions, made for their sets or any.
fn small_questions(count: u64) -> impl Iterator<Item = Question> {
    let made = |index| {
        let rng = &mut Rng::of_input(82, "small", index);
        match index % 2 {
            0 => sets::question(rng, &mut Kinds::default()),
            _ => question(rng, 10_000),
        }
    };
    (0..count).map(made)
}

/// An automaton with several starts; edges by letter.
struct Nondeterministic {
    starts: BTreeSet<usize>,
    finals: BTreeSet<usize>,
    edges: Vec<(usize, u8, usize)>,
}

impl Nondeterministic {
    fn of(listing: &Listing) -> Nondeterministic {
        let rows = listing.rows.iter().enumerate();
        let finals = rows.filter(|(_, row)| row.is_final).map(|(number, _)| number).collect();
        let edge = |edge: &second::listing::Edge| {
            (usize::from(edge.row), edge.label, usize::from(edge.target))
        };
        let edges = listing.edges.iter().map(edge).collect();
        Nondeterministic { starts: [0].into(), finals, edges }
    }

    fn reversed(self) -> Nondeterministic {
        let edges = self.edges.into_iter().map(|(from, by, to)| (to, by, from)).collect();
        Nondeterministic { starts: self.finals, finals: self.starts, edges }
    }

    /// Breadth first by rising letter; none of more sets than these, and bare if there is no start.
    fn determinised(&self, most: usize) -> Option<Automaton> {
        if self.starts.is_empty() {
            return Some(Automaton::bare());
        }
        let mut sets = vec![self.starts.clone()];
        let mut found = Automaton::default();
        while found.states() < sets.len() {
            let set = sets[found.states()].clone();
            let mut next: BTreeMap<u8, BTreeSet<usize>> = BTreeMap::new();
            for (from, by, to) in &self.edges {
                if set.contains(from) {
                    next.entry(*by).or_default().insert(*to);
                }
            }
            let mut number = |next: BTreeSet<usize>| {
                let known = sets.iter().position(|set| *set == next);
                known.unwrap_or_else(|| {
                    sets.push(next);
                    sets.len() - 1
                })
            };
            found.finals.push(!set.is_disjoint(&self.finals));
            found.steps.push(next.into_iter().map(|(by, next)| (by, number(next))).collect());
            if sets.len() > most {
                return None;
            }
        }
        Some(found)
    }
}

impl From<&Automaton> for Nondeterministic {
    fn from(automaton: &Automaton) -> Nondeterministic {
        let finals = (0..automaton.states()).filter(|&state| automaton.finals[state]).collect();
        Nondeterministic { starts: [0].into(), finals, edges: automaton.edges().collect() }
    }
}

/// Brzozowski: what is reversed and made deterministic twice is smallest.
#[test]
fn reversing_twice_leads_to_the_same_automaton() {
    let mut compared = 0;
    for question in small_questions(6_000) {
        let listing = Listing::of(&question.table, &question.formula);
        let Ok(found) = smallest(&listing) else { continue };
        if listing.edges.len() > 400 {
            continue;
        }
        let backward = Nondeterministic::of(&listing).reversed().determinised(300);
        let Some(backward) = backward else { continue };
        let twice = Nondeterministic::from(&backward).reversed().determinised(usize::MAX);
        assert_eq!(Some(found), twice, "{:?} over {:?}", question.formula, question.table);
        compared += 1;
    }
    assert!(compared > 5_000, "{compared}");
}

/// A shortest word of one state that the other lacks, or the other way round.
fn told_apart([one, other]: [(&Automaton, usize); 2]) -> Option<Vec<u8>> {
    let is_final = |automaton: &Automaton, state: Option<usize>| {
        state.is_some_and(|state| automaton.finals[state])
    };
    let after = |automaton: &Automaton, state: Option<usize>, letter: &u8| {
        state.and_then(|state| automaton.steps[state].get(letter).copied())
    };
    let letters: BTreeSet<u8> = [one, other]
        .iter()
        .flat_map(|(automaton, _)| automaton.edges())
        .map(|edge| edge.1)
        .collect();
    let mut seen = BTreeSet::new();
    let mut unvisited = VecDeque::from([(Some(one.1), Some(other.1), Vec::new())]);
    while let Some((left, right, word)) = unvisited.pop_front() {
        if !seen.insert((left, right)) {
            continue;
        }
        if is_final(one.0, left) != is_final(other.0, right) {
            return Some(word);
        }
        for letter in &letters {
            let word = [word.as_slice(), &[*letter]].concat();
            unvisited.push_back((after(one.0, left, letter), after(other.0, right, letter), word));
        }
    }
    None
}

/// The same words; each state reached, with a word and different from all others; numbered as edges
/// first lead to them.
fn is_smallest(found: &Automaton, listing: &Listing, labels: u8) {
    let read = |word: &[u8]| {
        word.iter().try_fold(0, |state: usize, letter| found.steps[state].get(letter).copied())
    };
    for word in all_words(labels, if labels < 3 { 5 } else { 3 }) {
        let is_read = read(&word).is_some_and(|state| found.finals[state]);
        assert_eq!(is_read, word::is_accepted_by(listing, &word), "{word:?}");
    }
    let nothing = Automaton::bare();
    for one in 0..found.states() {
        let has_words = told_apart([(found, one), (&nothing, 0)]).is_some();
        assert!(has_words || *found == nothing);
        for other in 0..one {
            assert!(told_apart([(found, one), (found, other)]).is_some());
        }
    }
    let mut numbered = 1;
    for (_, _, target) in found.edges() {
        assert!(target <= numbered);
        numbered += usize::from(target == numbered);
    }
    assert_eq!(numbered, found.states());
}

#[test]
fn the_automaton_is_smallest_by_the_definition() {
    let mut looked_at = 0;
    for Question { table, formula } in small_questions(3_000) {
        let listing = Listing::of(&table, &formula);
        match smallest(&listing) {
            Ok(found) if found.states() <= 12 && table.labels() <= 4 => {
                is_smallest(&found, &listing, table.labels() as u8);
                looked_at += 1;
            }
            _ => {}
        }
    }
    assert!(looked_at > 2_000, "{looked_at}");
}

/// 02: "have equal listings exactly when they have equal words".
#[test]
fn two_automata_are_equal_exactly_if_their_words_are() {
    let found: Vec<(usize, Automaton)> = small_questions(1_200)
        .filter_map(|Question { table, formula }| {
            Some((table.labels(), smallest(&Listing::of(&table, &formula)).ok()?))
        })
        .filter(|(labels, found)| *labels == 2 && found.states() <= 5)
        .collect();
    let (mut equal, mut different) = (0, 0);
    for (index, (_, one)) in found.iter().enumerate() {
        for (_, other) in &found[..index] {
            let are_equal = one.bytes() == other.bytes();
            assert_eq!(told_apart([(one, 0), (other, 0)]).is_none(), are_equal);
            *if are_equal { &mut equal } else { &mut different } += 1;
        }
    }
    assert!(equal > 500 && different > 5_000, "{equal} and {different}");
}

type Entry = fn(&[u8], &[u8], &mut [u8], &mut [u8], &mut [u8], &mut [u8], &mut u64) -> Reply;

/// The library's too, if it is linked.
fn entries_of() -> Vec<(&'static str, Entry)> {
    let known = [("second", entries::smallest as Entry), ("baseline", baseline::smallest)];
    known.into_iter().chain(library().smallest.map(|entry| ("library", entry))).collect()
}

/// The lengths that are lent beside table and formula.
#[derive(Clone, Copy)]
struct Lengths {
    rows: usize,
    edges: usize,
    smallest: usize,
    work: usize,
}

/// More than enough, for short listings.
const ENOUGH: Lengths =
    Lengths { rows: 2_000, edges: 9_000, smallest: SMALLEST_LENGTH + 5, work: WORK_LENGTH + 5 };

/// What a call leaves: the reply, the count of edges, and rows, edges and automaton as they are
/// then. What is never written is looked at here, and that the work buffer is cleared.
fn left(
    entry: Entry,
    table: &[u8],
    formula: &[u8],
    lengths: Lengths,
) -> (Reply, u64, [Vec<u8>; 3]) {
    let Lengths { rows, edges, smallest, work } = lengths;
    let before = [rows, edges, smallest, work].map(|length| filled(length as u64, length));
    let [mut rows, mut edges, mut smallest, mut work] = before.clone();
    let mut edge_count = 77;
    let reply =
        entry(table, formula, &mut rows, &mut edges, &mut smallest, &mut work, &mut edge_count);
    let cleared = if reply.number == 14 { 0 } else { WORK_LENGTH };
    assert!(work[..cleared].iter().all(|byte| *byte == 0), "the work buffer is cleared");
    assert!(work[cleared..] == before[3][cleared..], "and what is past it stays");
    let written = [rows, edges, smallest];
    if reply.number != 0 {
        assert!(written == before[..3], "a refusal leaves all else");
        assert_eq!(edge_count, 77);
    }
    (reply, edge_count, written)
}

fn bytes_of(question: &Question) -> [Vec<u8>; 2] {
    [prepared::table_bytes(&question.table), prepared::formula_bytes(&question.formula)]
}

fn all_agree(question: &Question, lengths: Lengths) -> Reply {
    let [table, formula] = bytes_of(question);
    let right = left(entries::smallest, &table, &formula, lengths);
    for (name, entry) in &entries_of()[1..] {
        let Question { table: of, formula: asked } = question;
        assert!(left(*entry, &table, &formula, lengths) == right, "{name}: {asked:?} over {of:?}");
    }
    right.0
}

#[test]
fn the_baseline_writes_the_same_bytes() {
    let mut numbers: BTreeMap<u32, usize> = BTreeMap::new();
    for (question, index) in small_questions(9_000).zip(0..) {
        let listing = Listing::of(&question.table, &question.formula);
        let rng = &mut Rng::of_input(83, "places", index);
        let mut places = |needed: usize| {
            (needed + rng.pick(&[0, 0, 0, 0, 1])).saturating_sub(rng.pick(&[0, 0, 0, 1]))
        };
        let lengths = Lengths {
            rows: places(listing.rows.len()) * ROW_PLACE + 1,
            edges: places(listing.edges.len()) * EDGE_PLACE + 1,
            ..ENOUGH
        };
        *numbers.entry(all_agree(&question, lengths).number).or_default() += 1;
    }
    let answered: Vec<u32> = numbers.keys().copied().collect();
    assert_eq!(answered, [0, 11, 12, 20]);
    assert!(numbers.values().all(|&times| times > 50), "{numbers:?}");
}

#[test]
fn the_longest_listings_agree() {
    let most = Lengths { rows: 10_496 * ROW_PLACE, edges: 1_000_000 * EDGE_PLACE, ..ENOUGH };
    let few = Lengths { edges: 500_000 * EDGE_PLACE, ..most };
    for seed in 0..4 {
        let of_few_sets = sets::longest_listing(&mut Rng::new(seed));
        assert_eq!(all_agree(&of_few_sets, most), Reply::accepted(9_750));
        assert_eq!(all_agree(&of_few_sets, few), refused(12, 786_240));
        let [table, formula] = bytes_of(&of_few_sets);
        let (_, edge_count, [_, _, automaton]) = left(baseline::smallest, &table, &formula, most);
        assert_eq!((edge_count, &automaton[..2]), (786_240, [250, 0].as_slice()));
        let of_more = longest_listing(&mut Rng::new(seed));
        assert_eq!(all_agree(&of_more, most), refused(20, 257));
        assert_eq!(all_agree(&of_more, few).number, 12);
    }
}

/// In place of one byte of a prepared table or formula another one.
fn damaged(bytes: &[u8], at: usize) -> Vec<u8> {
    let mut bytes = bytes.to_vec();
    bytes[at] ^= 0xff;
    bytes
}

#[test]
fn refusals_come_in_their_order() {
    let table = ring(256);
    let formula = Formula::read(&table, b"EX[a] EU[*] T").expect("a formula");
    let [table, formula] = bytes_of(&Question { table, formula });
    let [bad_table, bad_formula] = [damaged(&table, 0), damaged(&formula, 0)];
    let (short_table, short_formula) =
        (&bad_table[..TABLE_LENGTH - 1], &bad_formula[..FORMULA_LENGTH - 1]);
    let (few_rows, few_edges) = (257 * ROW_PLACE - 1, 257 * EDGE_PLACE - 1);
    let none = Lengths { rows: few_rows, edges: few_edges, smallest: 0, work: 0 };
    let no_work = Lengths { smallest: SMALLEST_LENGTH, ..none };
    let no_rows = Lengths { work: WORK_LENGTH, ..no_work };
    let no_edges = Lengths { rows: 257 * ROW_PLACE, ..no_rows };
    let enough = Lengths { edges: 257 * EDGE_PLACE, ..no_edges };
    for (name, entry) in entries_of() {
        let reply = |table: &[u8], formula: &[u8], lengths| left(entry, table, formula, lengths).0;
        assert_eq!(reply(short_table, short_formula, none), refused(14, 3_718), "{name}");
        assert_eq!(reply(&bad_table, short_formula, none), refused(14, 681), "{name}");
        assert_eq!(reply(&bad_table, &bad_formula, none), refused(14, 32_516), "{name}");
        let fewer = Lengths { smallest: SMALLEST_LENGTH - 1, work: WORK_LENGTH, ..none };
        assert_eq!(reply(&bad_table, &bad_formula, fewer), refused(14, 32_516), "{name}");
        assert_eq!(reply(&bad_table, &bad_formula, no_work), refused(14, 524_288), "{name}");
        let fewer = Lengths { work: WORK_LENGTH - 1, ..no_work };
        assert_eq!(reply(&bad_table, &bad_formula, fewer), refused(14, 524_288), "{name}");
        assert_eq!(reply(&bad_table, &bad_formula, no_rows), refused(10, 0), "{name}");
        assert_eq!(reply(&table, &bad_formula, no_rows), refused(10, 1), "{name}");
        assert_eq!(reply(&table, &formula, no_rows), refused(11, 257), "{name}");
        assert_eq!(reply(&table, &formula, no_edges), refused(12, 257), "{name}");
        assert_eq!(reply(&table, &formula, enough), refused(20, 257), "{name}");
    }
}

#[test]
fn rows_and_edges_are_those_of_the_build_and_the_automaton_stands_in_its_first_bytes() {
    for question in small_questions(400) {
        let [table, formula] = bytes_of(&question);
        let listing = Listing::of(&question.table, &question.formula);
        let lengths = Lengths {
            rows: (listing.rows.len() + 1) * ROW_PLACE,
            edges: (listing.edges.len() + 1) * EDGE_PLACE,
            ..ENOUGH
        };
        let [mut rows, mut edges] =
            [lengths.rows, lengths.edges].map(|length| filled(length as u64, length));
        let mut built = 0;
        let build = entries::build(&table, &formula, &mut rows, &mut edges, &mut built);
        for (name, entry) in entries_of() {
            let (reply, edge_count, written) = left(entry, &table, &formula, lengths);
            let Ok(found) = smallest(&listing) else {
                assert_eq!(reply, refused(20, 257), "{name}");
                continue;
            };
            assert_eq!((reply, edge_count), (build, built), "{name}");
            assert!(written[0] == rows && written[1] == edges, "{name}");
            let used = found.bytes().len();
            assert_eq!(used, 4 + found.states() + 3 * found.edges().count());
            assert_eq!(written[2][..used], found.bytes(), "{name}");
            let before = filled(lengths.smallest as u64, lengths.smallest);
            assert!(
                written[2][used..] == before[used..],
                "{name}: what is past the used bytes stays"
            );
        }
    }
}
