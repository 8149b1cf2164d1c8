//! Explainers that are wrong in one thing about smallest automata. The gate's inputs find each of
//! them.

mod common;

use std::collections::{BTreeMap, BTreeSet};

use common::found::all_are_found;
use second::baseline::{build, smallest};
use second::entries::{EDGE_PLACE, Entries, NONE, ROW_PLACE, SECOND, Smallest};
use second::fuzz;
use second::listing::Listing;
use second::prepared::{self, FORMULA_LENGTH, TABLE_LENGTH};
use second::reply::Reply;
use second::smallest::{Automaton, MAX_SETS, SMALLEST_LENGTH, WORK_LENGTH};
use second::table::{IDLE, MAX_LABELS, SILENT};

fn wrong(name: &'static str, entry: Smallest) -> (&'static str, Entries) {
    (name, Entries { smallest: Some(entry), ..NONE })
}

type Set = BTreeSet<u16>;
/// By letter, the rows that it leads to.
type Sets = BTreeMap<u8, Set>;
/// Letters, each with the block that it leads to.
type Leading = Vec<(u8, usize)>;

/// What is known when sets are too many or not.
struct Counts<'a> {
    /// At most 300.
    sets: usize,
    states: usize,
    found: &'a Automaton,
    listing: &'a Listing,
}

/// What the automaton goes by; each fault is one of these in place of the right one.
#[derive(Clone, Copy)]
struct Rules {
    /// The rows that a letter leads to, from those that are right.
    after: fn(&Listing, &Set, Sets) -> Sets,
    /// Sets with equal ones are taken for the same.
    key: fn(&Listing, &Set) -> Set,
    is_final: fn(&Listing, &Set) -> bool,
    /// The figure of 20.
    refusal: fn(&Counts) -> Option<usize>,
    /// How often blocks are refined at the most.
    rounds: usize,
    /// Each state's first block.
    first: fn(&Automaton) -> Vec<usize>,
    /// The blocks that letters lead to; states of one block with equal ones stay together.
    leading: fn(&Automaton, usize, &[usize]) -> Leading,
    /// The states of the result, each by one of its block, from those that are right.
    order: fn(&Automaton, &[usize], Vec<usize>) -> Vec<usize>,
    bytes: fn(&Automaton) -> Vec<u8>,
}

const RIGHT: Rules = Rules {
    after: |_, _, after| after,
    key: |_, set| set.clone(),
    is_final: |listing, set| set.iter().any(|row| listing.rows[usize::from(*row)].is_final),
    refusal: |counts| (counts.sets > MAX_SETS).then_some(257),
    rounds: usize::MAX,
    first: |found| found.finals.iter().map(|is_final| usize::from(*is_final)).collect(),
    leading: |found, state, blocks| {
        found.steps[state].iter().map(|(letter, target)| (*letter, blocks[*target])).collect()
    },
    order: |_, _, order| order,
    bytes: Automaton::bytes,
};

const ENOUGH: usize = 300;

/// A state for each set, as far as they are counted, and their number.
fn of_sets(rules: &Rules, listing: &Listing) -> (Automaton, usize) {
    let start = Set::from([0]);
    let mut numbers = BTreeMap::from([((rules.key)(listing, &start), 0)]);
    let mut sets = vec![start];
    let mut found = Automaton::default();
    while found.states() < sets.len() && sets.len() < ENOUGH {
        let set = sets[found.states()].clone();
        let mut after = Sets::new();
        for edge in set.iter().flat_map(|row| listing.edges_from(*row)) {
            after.entry(edge.label).or_default().insert(edge.target);
        }
        let mut steps = BTreeMap::new();
        for (letter, next) in (rules.after)(listing, &set, after) {
            let fresh = sets.len();
            let number = *numbers.entry((rules.key)(listing, &next)).or_insert(fresh);
            if number == fresh {
                sets.push(next);
            }
            steps.insert(letter, number);
        }
        found.finals.push((rules.is_final)(listing, &set));
        found.steps.push(steps);
    }
    (found, sets.len())
}

/// Each state's block, named by the lowest state of it.
fn blocks(rules: &Rules, found: &Automaton) -> Vec<usize> {
    fn named<Key: Ord>(keys: Vec<Key>) -> Vec<usize> {
        let mut lowest = BTreeMap::new();
        keys.into_iter()
            .enumerate()
            .map(|(state, key)| *lowest.entry(key).or_insert(state))
            .collect()
    }
    let mut blocks = named((rules.first)(found));
    for _ in 0..rules.rounds {
        let key = |state: usize| (blocks[state], (rules.leading)(found, state, &blocks));
        let refined = named((0..found.states()).map(key).collect());
        if refined == blocks {
            break;
        }
        blocks = refined;
    }
    blocks
}

fn merged(rules: &Rules, found: &Automaton) -> Automaton {
    let blocks = blocks(rules, found);
    let mut order = vec![0];
    let mut expanded = 0;
    while expanded < order.len() {
        for target in found.steps[order[expanded]].values() {
            if !order.contains(&blocks[*target]) {
                order.push(blocks[*target]);
            }
        }
        expanded += 1;
    }
    let order = (rules.order)(found, &blocks, order);
    let number = |state: usize| order.iter().position(|known| blocks[*known] == blocks[state]);
    let steps = |state: &usize| {
        let steps = found.steps[*state].iter();
        steps.filter_map(|(letter, target)| Some((*letter, number(*target)?))).collect()
    };
    Automaton {
        finals: order.iter().map(|state| found.finals[*state]).collect(),
        steps: order.iter().map(steps).collect(),
    }
}

/// The right call if it is refused before, or if the listing is long; else by these rules.
#[allow(clippy::too_many_arguments)]
fn by(
    rules: &Rules,
    table: &[u8],
    formula: &[u8],
    rows: &mut [u8],
    edges: &mut [u8],
    lent: &mut [u8],
    work: &mut [u8],
    edge_count: &mut u64,
) -> Reply {
    let before = [rows.to_vec(), edges.to_vec(), lent.to_vec()];
    let count = *edge_count;
    let reply = smallest(table, formula, rows, edges, lent, work, edge_count);
    if !matches!(reply.number, 0 | 20) {
        return reply;
    }
    let read = prepared::table_of(table).expect("a table");
    let asked = prepared::formula_of(formula, read.labels()).expect("a formula");
    let listing = Listing::of(&read, &asked);
    if listing.edges.len() > 4_000 {
        return reply;
    }
    let (found, sets) = of_sets(rules, &listing);
    let whole = found.states() == sets;
    let automaton = if whole { merged(rules, &found) } else { Automaton::bare() };
    let counts = Counts { sets, states: automaton.states(), found: &found, listing: &listing };
    for (lent, before) in [&mut *rows, &mut *edges, &mut *lent].into_iter().zip(&before) {
        lent.copy_from_slice(before);
    }
    *edge_count = count;
    let refused = (rules.refusal)(&counts).or((!whole).then_some(257));
    if let Some(figure) = refused {
        return Reply { number: 20, figure: figure as u64 };
    }
    let bytes = (rules.bytes)(&automaton);
    let written = bytes.len().min(lent.len());
    lent[..written].copy_from_slice(&bytes[..written]);
    build(table, formula, rows, edges, edge_count)
}

/// By the rule that is wrong.
macro_rules! rules {
    ($($name:literal: { $rule:ident: $wrong:expr },)*) => {
        all_are_found(&[$(wrong($name, |table, formula, rows, edges, lent, work, count| {
            let rules = Rules { $rule: $wrong, ..RIGHT };
            by(&rules, table, formula, rows, edges, lent, work, count)
        })),*])
    };
}

#[test]
fn with_the_right_rules_no_fault_is_found() {
    let right: Smallest = |table, formula, rows, edges, lent, work, count| {
        by(&RIGHT, table, formula, rows, edges, lent, work, count)
    };
    let right = Entries { smallest: Some(right), ..NONE };
    assert_eq!(fuzz::run(&SECOND, &right, 61, 6_000, |_| ()), Ok(()));
}

/// Without what does not fit, and letters that then lead nowhere.
fn kept(after: Sets, fits: impl Fn(u8, &Sets) -> bool) -> Sets {
    let kept = after.iter().filter(|(letter, _)| fits(**letter, &after));
    kept.map(|(letter, set)| (*letter, set.clone())).collect()
}

/// Each letter leads to one row.
fn one_of_each(after: Sets, row: fn(&Set) -> Option<&u16>) -> Sets {
    after
        .into_iter()
        .map(|(letter, set)| (letter, row(&set).into_iter().copied().collect()))
        .collect()
}

/// What the edges of some rows lead to.
fn from_rows<'a>(listing: &Listing, rows: impl Iterator<Item = &'a u16>) -> Sets {
    let mut after = Sets::new();
    for edge in rows.flat_map(|row| listing.edges_from(*row)) {
        after.entry(edge.label).or_default().insert(edge.target);
    }
    after
}

/// With all that silent steps lead to.
fn silently(listing: &Listing, set: &Set) -> Set {
    let mut closed = set.clone();
    loop {
        let more = from_rows(listing, closed.iter()).remove(&SILENT).unwrap_or_default();
        if more.is_subset(&closed) {
            return closed;
        }
        closed.extend(more);
    }
}

#[test]
fn faults_in_where_a_set_leads_are_found() {
    rules! {
        "by the edges of its first row": { after: |listing, set, _| {
            from_rows(listing, set.first().into_iter())
        } },
        "by the edges of its last row": { after: |listing, set, _| {
            from_rows(listing, set.last().into_iter())
        } },
        "by those of its first and its last": { after: |listing, set, _| {
            from_rows(listing, set.first().into_iter().chain(set.last()))
        } },
        "to the first row of each letter": { after: |_, _, after| {
            one_of_each(after, Set::first)
        } },
        "to the last row of each letter": { after: |_, _, after| {
            one_of_each(after, Set::last)
        } },
        "nowhere by 99": { after: |_, _, after| kept(after, |letter, _| letter != IDLE) },
        "nowhere by 99 beside other labels": { after: |_, _, after| {
            kept(after, |letter, all| letter != IDLE || all.len() == 1)
        } },
        "nowhere by others beside 99": { after: |_, _, after| {
            kept(after, |letter, all| letter == IDLE || !all.contains_key(&IDLE))
        } },
        "nowhere by 0": { after: |_, _, after| kept(after, |letter, _| letter != SILENT) },
        "nowhere by label 40": { after: |_, _, after| {
            kept(after, |letter, _| usize::from(letter) != MAX_LABELS)
        } },
        "nowhere by labels from 32 on": { after: |_, _, after| {
            kept(after, |letter, _| letter < 32 || letter == IDLE)
        } },
        "by 99 as by 0": { after: |_, _, mut after| {
            if let Some(idle) = after.remove(&IDLE) {
                after.entry(SILENT).or_default().extend(idle);
            }
            after
        } },
        "by 99 and 0 as by 99": { after: |_, _, mut after| {
            match after.remove(&SILENT) {
                Some(silent) if after.contains_key(&IDLE) => {
                    after.entry(IDLE).or_default().extend(silent);
                }
                Some(silent) => drop(after.insert(SILENT, silent)),
                None => {}
            }
            after
        } },
        "on by silent steps that are not read": { after: |listing, set, _| {
            let mut after = from_rows(listing, silently(listing, set).iter());
            after.remove(&SILENT);
            after
        } },
        "never back to the start alone": { after: |_, _, after| {
            let start = Set::from([0]);
            after.into_iter().filter(|(_, set)| *set != start).collect()
        } },
        "never to rows without edges": { after: |listing, _, after| {
            let leads = |row: &u16| !listing.edges_from(*row).is_empty();
            after.into_iter().filter(|(_, set)| set.iter().any(leads)).collect()
        } },
        "never to itself": { after: |_, set, after| {
            after.into_iter().filter(|(_, next)| next != set).collect()
        } },
    }
}

/// Rows that fit, by place and state.
fn rows_that(listing: &Listing, set: &Set, fits: fn(u8, u8) -> bool) -> Set {
    let row = |row: &u16| listing.rows[usize::from(*row)];
    set.iter().filter(|number| fits(row(number).place, row(number).state)).copied().collect()
}

#[test]
fn faults_in_which_sets_are_the_same_are_found() {
    rules! {
        "of as many rows": { key: |_, set| Set::from([set.len() as u16]) },
        "of the same first row": { key: |_, set| set.first().copied().into_iter().collect() },
        "of the same last row": { key: |_, set| set.last().copied().into_iter().collect() },
        "of the same first and last row": { key: |_, set| {
            set.first().into_iter().chain(set.last()).copied().collect()
        } },
        "of the same sum": { key: |_, set| Set::from([set.iter().sum()]) },
        "of the same states": { key: |listing, set| {
            set.iter().map(|row| listing.rows[usize::from(*row)].state.into()).collect()
        } },
        "of the same places": { key: |listing, set| {
            set.iter().map(|row| listing.rows[usize::from(*row)].place.into()).collect()
        } },
        "but for state 0": { key: |listing, set| rows_that(listing, set, |_, state| state != 0) },
        "but for the last state": { key: |listing, set| {
            let last = listing.rows.iter().map(|row| row.state).max();
            let is_last = |row: &&u16| Some(listing.rows[usize::from(**row)].state) == last;
            set.iter().filter(|row| !is_last(row)).copied().collect()
        } },
        "but for state 255": { key: |listing, set| {
            rows_that(listing, set, |_, state| state < 255)
        } },
        "but for states from 128 on": { key: |listing, set| {
            rows_that(listing, set, |_, state| state < 128)
        } },
        "but for states from 64 on": { key: |listing, set| {
            rows_that(listing, set, |_, state| state < 64)
        } },
        "but for place 0": { key: |listing, set| rows_that(listing, set, |place, _| place != 0) },
        "but for places from 32 on": { key: |listing, set| {
            rows_that(listing, set, |place, _| place < 32)
        } },
        "but for place 39": { key: |listing, set| rows_that(listing, set, |place, _| place != 39) },
        "but for their first row": { key: |_, set| set.iter().skip(1).copied().collect() },
        "but for rows from 256 on": { key: |_, set| set.iter().map(|row| row % 256).collect() },
        "but for rows that are final": { key: |listing, set| {
            set.iter().filter(|row| !listing.rows[usize::from(**row)].is_final).copied().collect()
        } },
    }
}

#[test]
fn faults_in_final_marks_are_found() {
    rules! {
        "if all rows are": { is_final: |listing, set| {
            set.iter().all(|row| listing.rows[usize::from(*row)].is_final)
        } },
        "if the first row is": { is_final: |listing, set| {
            set.first().is_some_and(|row| listing.rows[usize::from(*row)].is_final)
        } },
        "if the last row is": { is_final: |listing, set| {
            set.last().is_some_and(|row| listing.rows[usize::from(*row)].is_final)
        } },
        "the start never": { is_final: |listing, set| {
            *set != Set::from([0]) && (RIGHT.is_final)(listing, set)
        } },
        "the start always": { is_final: |listing, set| {
            *set == Set::from([0]) || (RIGHT.is_final)(listing, set)
        } },
        "all": { is_final: |_, _| true },
        "none that has edges": { is_final: |listing, set| {
            (RIGHT.is_final)(listing, set) && from_rows(listing, set.iter()).is_empty()
        } },
    }
}

#[test]
fn faults_in_how_many_sets_there_may_be_are_found() {
    rules! {
        "255": { refusal: |counts| (counts.sets > 255).then_some(257) },
        "257": { refusal: |counts| (counts.sets > 257).then_some(257) },
        "of more rows": { refusal: |counts| (counts.listing.rows.len() > 256).then_some(257) },
        "of more states": { refusal: |counts| (counts.states > 256).then_some(257) },
        "the empty set among them": { refusal: |counts| {
            let letters: BTreeSet<u8> = counts.found.edges().map(|edge| edge.1).collect();
            let lacks = counts.found.steps.iter().any(|steps| steps.len() < letters.len());
            (counts.sets + usize::from(lacks) > 256).then_some(257)
        } },
        "the start aside if nothing leads back to it": { refusal: |counts| {
            let is_entered = counts.found.edges().any(|edge| edge.2 == 0);
            (counts.sets - usize::from(!is_entered) > 256).then_some(257)
        } },
        "final ones aside": { refusal: |counts| {
            let finals = counts.found.finals.iter().filter(|is_final| **is_final).count();
            (counts.sets - finals > 256).then_some(257)
        } },
        "their count is told": { refusal: |counts| {
            (counts.sets > 256).then_some(counts.sets)
        } },
        "256 is told": { refusal: |counts| (counts.sets > 256).then_some(256) },
        "0 is told": { refusal: |counts| (counts.sets > 256).then_some(0) },
        "the count of rows is told": { refusal: |counts| {
            (counts.sets > 256).then_some(counts.listing.rows.len())
        } },
    }
}

/// Where a letter leads is not looked at.
fn but_for(letter: u8, found: &Automaton, state: usize, blocks: &[usize]) -> Leading {
    let mut leading = (RIGHT.leading)(found, state, blocks);
    leading.retain(|(known, _)| *known != letter);
    leading
}

#[test]
fn faults_in_which_states_are_one_are_found() {
    rules! {
        "none are": { first: |found| (0..found.states()).collect() },
        "after no round": { rounds: 0 },
        "after one round": { rounds: 1 },
        "after two rounds": { rounds: 2 },
        "after three rounds": { rounds: 3 },
        "after eight rounds": { rounds: 8 },
        "after 64 rounds": { rounds: 64 },
        "after 200 rounds": { rounds: 200 },
        "after 253 rounds": { rounds: 253 },
        "final or not": { first: |found| vec![0; found.states()] },
        "the start never": { first: |found| {
            let finals = found.finals.iter().map(|is_final| 1 + usize::from(*is_final));
            finals.enumerate().map(|(state, mark)| if state == 0 { 0 } else { mark }).collect()
        } },
        "final ones never": { first: |found| {
            let marks = found.finals.iter().enumerate();
            marks.map(|(state, is_final)| if *is_final { 1 + state } else { 0 }).collect()
        } },
        "by the letters alone": { leading: |found, state, _| {
            found.steps[state].keys().map(|letter| (*letter, 0)).collect()
        } },
        "by where letters lead, whichever": { leading: |found, state, blocks| {
            let targets: BTreeSet<usize> =
                found.steps[state].values().map(|target| blocks[*target]).collect();
            targets.into_iter().map(|target| (0, target)).collect()
        } },
        "but for where 0 leads": { leading: |found, state, blocks| {
            but_for(SILENT, found, state, blocks)
        } },
        "but for where label 1 leads": { leading: |found, state, blocks| {
            but_for(1, found, state, blocks)
        } },
        "but for where 99 leads": { leading: |found, state, blocks| {
            but_for(IDLE, found, state, blocks)
        } },
        "but for where the last letter leads": { leading: |found, state, blocks| {
            let last = found.edges().map(|edge| edge.1).max().unwrap_or(0);
            but_for(last, found, state, blocks)
        } },
        "by where letters lead in one step, not by blocks": { leading: |found, state, _| {
            found.steps[state].iter().map(|(letter, target)| (*letter, *target)).collect()
        } },
        "but for where they lead to themselves": { leading: |found, state, blocks| {
            let steps = found.steps[state].iter().filter(|(_, target)| **target != state);
            steps.map(|(letter, target)| (*letter, blocks[*target])).collect()
        } },
    }
}

/// Depth first: a state before those that a later letter leads to.
fn deep(found: &Automaton, blocks: &[usize], state: usize, order: &mut Vec<usize>) {
    if order.contains(&blocks[state]) {
        return;
    }
    order.push(blocks[state]);
    for target in found.steps[blocks[state]].values() {
        deep(found, blocks, *target, order);
    }
}

/// Breadth first, with the letters of a state in another order.
fn broad(found: &Automaton, blocks: &[usize], key: fn(u8) -> u8) -> Vec<usize> {
    let mut order = vec![0];
    let mut expanded = 0;
    while expanded < order.len() {
        let mut steps: Vec<(u8, usize)> =
            found.steps[order[expanded]].iter().map(|(letter, to)| (*letter, *to)).collect();
        steps.sort_by_key(|(letter, _)| key(*letter));
        for (_, target) in steps {
            if !order.contains(&blocks[target]) {
                order.push(blocks[target]);
            }
        }
        expanded += 1;
    }
    order
}

#[test]
fn faults_in_the_numbers_of_states_are_found() {
    rules! {
        "depth first": { order: |found, blocks, _| {
            let mut order = Vec::new();
            deep(found, blocks, 0, &mut order);
            order
        } },
        "by falling label": { order: |found, blocks, _| {
            broad(found, blocks, |letter| 255 - letter)
        } },
        "99 first": { order: |found, blocks, _| {
            broad(found, blocks, |letter| letter.wrapping_add(157))
        } },
        "99 behind 0": { order: |found, blocks, _| {
            broad(found, blocks, |letter| if letter == IDLE { 1 } else { 2 * letter })
        } },
        "0 behind the labels": { order: |found, blocks, _| {
            broad(found, blocks, |letter| letter.wrapping_sub(1))
        } },
        "by the last set of each": { order: |found, blocks, order| {
            let last = |block: usize| (0..found.states()).rev().find(|set| blocks[*set] == block);
            let mut sorted = order;
            sorted[1..].sort_by_key(|block| last(*block));
            sorted
        } },
        "final ones first behind the start": { order: |found, _, mut order| {
            order[1..].sort_by_key(|state| !found.finals[*state]);
            order
        } },
        "the start last": { order: |_, _, mut order| {
            order.rotate_left(1);
            order
        } },
        "the last two exchanged, of three or more": { order: |_, _, mut order| {
            if let [_, .., one, other] = order.as_mut_slice() {
                std::mem::swap(one, other);
            }
            order
        } },
        "the last is lost": { order: |_, _, mut order| {
            if order.len() > 1 {
                order.pop();
            }
            order
        } },
        "the last of 256 is lost": { order: |_, _, mut order| {
            if order.len() == 256 {
                order.pop();
            }
            order
        } },
    }
}

/// The bytes with the edges in another order or changed.
fn with_edges(automaton: &Automaton, change: impl Fn(&mut Vec<[u8; 3]>)) -> Vec<u8> {
    let mut edges: Vec<[u8; 3]> = automaton
        .edges()
        .map(|(state, letter, target)| [state as u8, letter, target as u8])
        .collect();
    change(&mut edges);
    let bytes = automaton.bytes();
    [&bytes[..4 + automaton.states()], edges.as_flattened()].concat()
}

/// The bytes with the counts and the marks changed.
fn with_head(automaton: &Automaton, change: impl Fn(&mut [u8])) -> Vec<u8> {
    let mut bytes = automaton.bytes();
    change(&mut bytes[..4 + automaton.states()]);
    bytes
}

#[test]
fn faults_in_the_bytes_of_the_automaton_are_found() {
    rules! {
        "states in one byte": { bytes: |of| with_head(of, |head| head[1] = 0) },
        "edges in one byte": { bytes: |of| with_head(of, |head| head[3] = 0) },
        "high byte first": { bytes: |of| with_head(of, |head| {
            head.swap(0, 1);
            head.swap(2, 3);
        }) },
        "edges before states": { bytes: |of| with_head(of, |head| head[..4].rotate_left(2)) },
        "one state less": { bytes: |of| with_head(of, |head| head[0] = head[0].wrapping_sub(1)) },
        "one edge less": { bytes: |of| with_head(of, |head| head[2] = head[2].saturating_sub(1)) },
        "marks turned": { bytes: |of| {
            with_head(of, |head| head[4..].iter_mut().for_each(|mark| *mark ^= 1))
        } },
        "marks of 255": { bytes: |of| {
            with_head(of, |head| head[4..].iter_mut().for_each(|mark| *mark *= 255))
        } },
        "the last mark is 0": { bytes: |of| {
            with_head(of, |head| *head.last_mut().expect("a state") = 0)
        } },
        "the last mark of 256 is turned": { bytes: |of| with_head(of, |head| {
            if let Some(mark) = head.get_mut(4 + 255) {
                *mark ^= 1;
            }
        }) },
        "marks from the last to the first": { bytes: |of| {
            with_head(of, |head| head[4..].reverse())
        } },
        "edges behind 256 marks": { bytes: |of| {
            let bytes = of.bytes();
            let (head, edges) = bytes.split_at(4 + of.states());
            let mut marks = head.to_vec();
            marks.resize(4 + MAX_SETS, 0);
            [&marks, edges].concat()
        } },
        "by label": { bytes: |of| with_edges(of, |edges| edges.sort_by_key(|edge| edge[1])) },
        "by falling label": { bytes: |of| with_edges(of, |edges| {
            edges.sort_by_key(|edge| (edge[0], 255 - edge[1]));
        }) },
        "by target": { bytes: |of| {
            with_edges(of, |edges| edges.sort_by_key(|edge| (edge[0], edge[2])))
        } },
        "99 before other labels": { bytes: |of| with_edges(of, |edges| {
            edges.sort_by_key(|edge| (edge[0], edge[1].wrapping_add(157)));
        }) },
        "label, then target, then state": { bytes: |of| with_edges(of, |edges| {
            edges.iter_mut().for_each(|edge| edge.rotate_left(1));
        }) },
        "target before label": { bytes: |of| with_edges(of, |edges| {
            edges.iter_mut().for_each(|edge| edge.swap(1, 2));
        }) },
        "states from 1": { bytes: |of| with_edges(of, |edges| {
            edges.iter_mut().for_each(|edge| edge[0] = edge[0].wrapping_add(1));
        }) },
        "99 as 41": { bytes: |of| with_edges(of, |edges| {
            edges.iter_mut().filter(|edge| edge[1] == IDLE).for_each(|edge| edge[1] = 41);
        }) },
        "99 as 0": { bytes: |of| with_edges(of, |edges| {
            edges.iter_mut().filter(|edge| edge[1] == IDLE).for_each(|edge| edge[1] = SILENT);
        }) },
        "labels from 0": { bytes: |of| with_edges(of, |edges| {
            edges.iter_mut().for_each(|edge| edge[1] = edge[1].saturating_sub(1));
        }) },
        "the last edge is not written": { bytes: |of| {
            let mut bytes = of.bytes();
            bytes.truncate(bytes.len() - 3 * usize::from(bytes[2] > 0));
            bytes
        } },
        "edges past 8,192 are not written": { bytes: |of| {
            let mut bytes = of.bytes();
            bytes.truncate(4 + 256 + 3 * 8_192);
            bytes
        } },
        "edges past 255 are not written": { bytes: |of| {
            let mut bytes = of.bytes();
            bytes.truncate(4 + of.states() + 3 * 255);
            bytes
        } },
        "no state if there are no words": { bytes: |of| {
            if *of == Automaton::bare() { vec![0; 4] } else { of.bytes() }
        } },
        "a final state if there are no words": { bytes: |of| {
            if *of == Automaton::bare() { vec![1, 0, 0, 0, 1] } else { of.bytes() }
        } },
        "nothing if there are no words": { bytes: |of| {
            if *of == Automaton::bare() { Vec::new() } else { of.bytes() }
        } },
        "a trap state where letters are missing": { bytes: |of| {
            let letters: BTreeSet<u8> = of.edges().map(|edge| edge.1).collect();
            let trap = of.states();
            if trap == 256 || of.steps.iter().all(|steps| steps.len() == letters.len()) {
                return of.bytes();
            }
            let mut whole = of.clone();
            whole.finals.push(false);
            whole.steps.push(BTreeMap::new());
            for steps in &mut whole.steps {
                letters.iter().for_each(|letter| _ = steps.entry(*letter).or_insert(trap));
            }
            whole.bytes()
        } },
        "all 32,516 bytes are written": { bytes: |of| {
            let mut bytes = of.bytes();
            bytes.resize(SMALLEST_LENGTH, 0);
            bytes
        } },
        "one byte more is written": { bytes: |of| [of.bytes(), vec![0]].concat() },
    }
}

/// What a call is lent to write, as it is before and after it.
struct Written<'a> {
    reply: Reply,
    before: &'a [Vec<u8>; 4],
    rows: &'a mut [u8],
    edges: &'a mut [u8],
    smallest: &'a mut [u8],
    work: &'a mut [u8],
    edge_count: &'a mut u64,
}

/// By what becomes of the lent bytes, of the count of edges and of the reply.
macro_rules! written {
    ($($name:literal: $change:expr,)*) => {
        all_are_found(&[$(wrong($name, |table, formula, rows, edges, lent, work, edge_count| {
            let before = &[rows.to_vec(), edges.to_vec(), lent.to_vec(), work.to_vec()];
            let reply = smallest(table, formula, rows, edges, lent, work, edge_count);
            let change: fn(Written) -> Reply = $change;
            let smallest = lent;
            change(Written { reply, before, rows, edges, smallest, work, edge_count })
        })),*])
    };
}

fn states(smallest: &[u8]) -> usize {
    u16::from_le_bytes([smallest[0], smallest[1]]).into()
}

fn used(smallest: &[u8]) -> usize {
    let edges: usize = u16::from_le_bytes([smallest[2], smallest[3]]).into();
    4 + states(smallest) + 3 * edges
}

#[test]
fn faults_in_what_is_left_of_the_work_buffer_are_found() {
    written! {
        "it is not cleared": |lent| {
            lent.work.copy_from_slice(&lent.before[3]);
            lent.reply
        },
        "its last byte is not": |lent| {
            if lent.reply.number != 14 {
                lent.work[WORK_LENGTH - 1] = lent.before[3][WORK_LENGTH - 1];
            }
            lent.reply
        },
        "its last eight bytes are not": |lent| {
            if lent.reply.number != 14 {
                lent.work[WORK_LENGTH - 8..WORK_LENGTH]
                    .copy_from_slice(&lent.before[3][WORK_LENGTH - 8..WORK_LENGTH]);
            }
            lent.reply
        },
        "its first byte is not": |lent| {
            if lent.reply.number != 14 {
                lent.work[0] = lent.before[3][0];
            }
            lent.reply
        },
        "only as far as states are used is it": |lent| {
            if lent.reply.number == 0 {
                let used = 2_048 * states(lent.smallest);
                lent.work[used..].copy_from_slice(&lent.before[3][used..]);
            }
            lent.reply
        },
        "not on 10": |lent| {
            if lent.reply.number == 10 {
                lent.work.copy_from_slice(&lent.before[3]);
            }
            lent.reply
        },
        "not on 10 of the table": |lent| {
            if (lent.reply.number, lent.reply.figure) == (10, 0) {
                lent.work.copy_from_slice(&lent.before[3]);
            }
            lent.reply
        },
        "not on 11": |lent| {
            if lent.reply.number == 11 {
                lent.work.copy_from_slice(&lent.before[3]);
            }
            lent.reply
        },
        "not on 12": |lent| {
            if lent.reply.number == 12 {
                lent.work.copy_from_slice(&lent.before[3]);
            }
            lent.reply
        },
        "not on 20": |lent| {
            if lent.reply.number == 20 {
                lent.work.copy_from_slice(&lent.before[3]);
            }
            lent.reply
        },
        "a mask of the last set is left on 20": |lent| {
            if lent.reply.number == 20 {
                lent.work[255 * 2_048] = 1;
            }
            lent.reply
        },
        "a mask of the first set is left": |lent| {
            if lent.reply.number == 0 {
                lent.work[0] = 1;
            }
            lent.reply
        },
        "on 14 too": |lent| {
            if lent.reply.number == 14 {
                lent.work.fill(0);
            }
            lent.reply
        },
        "on 14 of the automaton's buffer too": |lent| {
            if (lent.reply.number, lent.reply.figure) == (14, SMALLEST_LENGTH as u64) {
                lent.work.fill(0);
            }
            lent.reply
        },
        "a byte past its length too": |lent| {
            if let (true, Some(byte)) = (lent.reply.number != 14, lent.work.get_mut(WORK_LENGTH)) {
                *byte = 0;
            }
            lent.reply
        },
        "all that is lent too": |lent| {
            if lent.reply.number != 14 {
                lent.work.fill(0);
            }
            lent.reply
        },
    }
}

#[test]
fn faults_in_what_else_is_written_are_found() {
    written! {
        "the figure is the count of states": |lent| match lent.reply.number {
            0 => Reply::accepted(states(lent.smallest) as u64),
            _ => lent.reply,
        },
        "the count of edges is the automaton's": |lent| {
            if lent.reply.number == 0 {
                *lent.edge_count = u16::from_le_bytes([lent.smallest[2], lent.smallest[3]]).into();
            }
            lent.reply
        },
        "the count of edges is not written": |lent| {
            *lent.edge_count = 0x5a5a_5a5a_5a5a_5a5a;
            lent.reply
        },
        "rows are not written": |lent| {
            lent.rows.copy_from_slice(&lent.before[0]);
            lent.reply
        },
        "edges are not written": |lent| {
            lent.edges.copy_from_slice(&lent.before[1]);
            lent.reply
        },
        "the last edge is not": |lent| {
            if let (0, Some(last)) = (lent.reply.number, lent.edge_count.checked_sub(1)) {
                let place = last as usize * EDGE_PLACE..(last as usize + 1) * EDGE_PLACE;
                lent.edges[place.clone()].copy_from_slice(&lent.before[1][place]);
            }
            lent.reply
        },
        "the verdict stands behind the automaton": |lent| {
            if lent.reply.number == 0 {
                let used = used(lent.smallest);
                lent.smallest[used] = 1;
            }
            lent.reply
        },
        "what is past the automaton's length is cleared": |lent| {
            if let (0, Some(byte)) = (lent.reply.number, lent.smallest.get_mut(SMALLEST_LENGTH)) {
                *byte = 0;
            }
            lent.reply
        },
        "its last used byte is not written": |lent| {
            if lent.reply.number == 0 {
                let last = used(lent.smallest) - 1;
                lent.smallest[last] = lent.before[2][last];
            }
            lent.reply
        },
        "on 20 its counts are written": |lent| {
            if lent.reply.number == 20 {
                lent.smallest[..2].copy_from_slice(&[1, 1]);
            }
            lent.reply
        },
        "on 20 the buffer is cleared": |lent| {
            if lent.reply.number == 20 {
                lent.smallest.fill(0);
            }
            lent.reply
        },
        "on 20 the first row is written": |lent| {
            if lent.reply.number == 20 {
                lent.rows[..ROW_PLACE].copy_from_slice(&[0, 0, 0]);
            }
            lent.reply
        },
        "on 20 the last byte lent for edges is written": |lent| {
            if let (20, Some(byte)) = (lent.reply.number, lent.edges.last_mut()) {
                *byte ^= 1;
            }
            lent.reply
        },
        "on 20 the count of edges is written": |lent| {
            if lent.reply.number == 20 {
                *lent.edge_count = 300;
            }
            lent.reply
        },
        "on 12 the rows are written": |lent| {
            if lent.reply.number == 12 {
                lent.rows[0] = 0;
            }
            lent.reply
        },
        "on 11 a byte of the automaton is": |lent| {
            if lent.reply.number == 11 {
                lent.smallest[0] ^= 1;
            }
            lent.reply
        },
        "on 10 a byte of the automaton is": |lent| {
            if lent.reply.number == 10 {
                lent.smallest[0] ^= 1;
            }
            lent.reply
        },
        "on 14 its buffer is cleared": |lent| {
            if lent.reply.number == 14 {
                lent.smallest.fill(0);
            }
            lent.reply
        },
    }
}

/// What is answered if so many bytes are lent for rows, edges, the automaton and work.
fn with_enough(table: &[u8], formula: &[u8]) -> Reply {
    if table.len() < TABLE_LENGTH || formula.len() < FORMULA_LENGTH {
        return Reply { number: 14, figure: 0 };
    }
    let [mut rows, mut edges] = [vec![0; 10_496 * ROW_PLACE], vec![0; 1_000_000 * EDGE_PLACE]];
    let [mut lent, mut work] = [vec![0; SMALLEST_LENGTH], vec![0; WORK_LENGTH]];
    smallest(table, formula, &mut rows, &mut edges, &mut lent, &mut work, &mut 0)
}

/// By the reply to these lengths, whatever is lent; nothing else is written.
macro_rules! answered {
    ($($name:literal: $answer:expr,)*) => {
        all_are_found(&[$(wrong($name, |table, formula, rows, edges, lent, work, edge_count| {
            let answer: fn(&[u8], &[u8], [usize; 4]) -> Option<Reply> = $answer;
            match answer(table, formula, [rows.len(), edges.len(), lent.len(), work.len()]) {
                Some(reply) => reply,
                None => smallest(table, formula, rows, edges, lent, work, edge_count),
            }
        })),*])
    };
}

fn refused(number: u32, figure: usize) -> Option<Reply> {
    Some(Reply { number, figure: figure as u64 })
}

fn are_long(table: &[u8], formula: &[u8]) -> bool {
    table.len() >= TABLE_LENGTH && formula.len() >= FORMULA_LENGTH
}

#[test]
fn faults_in_what_is_refused_before_are_found() {
    answered! {
        "14 of work before that of the automaton": |table, formula, [_, _, _, work]| {
            let is_first = are_long(table, formula) && work < WORK_LENGTH;
            if is_first { refused(14, WORK_LENGTH) } else { None }
        },
        "14 of the automaton before that of the formula": |table, _, [_, _, lent, _]| {
            let is_first = table.len() >= TABLE_LENGTH && lent < SMALLEST_LENGTH;
            if is_first { refused(14, SMALLEST_LENGTH) } else { None }
        },
        "14 of work before that of the table": |_, _, [_, _, _, work]| {
            if work < WORK_LENGTH { refused(14, WORK_LENGTH) } else { None }
        },
        "10 before 14 of the automaton": |table, formula, [_, _, lent, _]| {
            let reply = (lent < SMALLEST_LENGTH).then(|| with_enough(table, formula));
            reply.filter(|reply| reply.number == 10)
        },
        "10 before 14 of work": |table, formula, [_, _, lent, work]| {
            let is_asked = lent >= SMALLEST_LENGTH && work < WORK_LENGTH;
            is_asked.then(|| with_enough(table, formula)).filter(|reply| reply.number == 10)
        },
        "20 before 14 of work": |table, formula, [_, _, lent, work]| {
            let is_asked = lent >= SMALLEST_LENGTH && work < WORK_LENGTH;
            is_asked.then(|| with_enough(table, formula)).filter(|reply| reply.number == 20)
        },
        "14 is told with the length that is lent": |table, formula, [_, _, lent, _]| {
            let is_short = are_long(table, formula) && lent < SMALLEST_LENGTH;
            if is_short { refused(14, lent) } else { None }
        },
        "14 of work with the automaton's length": |table, formula, [_, _, lent, work]| {
            let are_others_long = are_long(table, formula) && lent >= SMALLEST_LENGTH;
            if are_others_long && work < WORK_LENGTH { refused(14, SMALLEST_LENGTH) } else { None }
        },
        "32,516 bytes are too few": |table, formula, [_, _, lent, _]| {
            let is_short = are_long(table, formula) && lent == SMALLEST_LENGTH;
            if is_short { refused(14, SMALLEST_LENGTH + 1) } else { None }
        },
        "524,288 bytes are too few": |table, formula, [_, _, lent, work]| {
            let are_others_long = are_long(table, formula) && lent >= SMALLEST_LENGTH;
            if are_others_long && work == WORK_LENGTH { refused(14, WORK_LENGTH + 1) } else { None }
        },
        "20 before 11": |table, formula, [_, _, lent, work]| {
            let is_asked = lent >= SMALLEST_LENGTH && work >= WORK_LENGTH;
            let reply = is_asked.then(|| with_enough(table, formula));
            reply.filter(|reply| reply.number == 20)
        },
        "20 before 12": |table, formula, [rows, _, lent, work]| {
            let are_long = lent >= SMALLEST_LENGTH && work >= WORK_LENGTH;
            let reply = (are_long && rows >= 256 * ROW_PLACE).then(|| with_enough(table, formula));
            reply.filter(|reply| reply.number == 20)
        },
        "12 before 11": |table, formula, [_, edges, lent, work]| {
            let are_long = lent >= SMALLEST_LENGTH && work >= WORK_LENGTH;
            let mut edge_count = 0;
            let built = (are_long && edges < 20 * EDGE_PLACE).then(|| {
                let places = [(10_496, ROW_PLACE), (5_000, EDGE_PLACE)];
                let [mut rows, mut edges] = places.map(|(count, size)| vec![0; count * size]);
                build(table, formula, &mut rows, &mut edges, &mut edge_count)
            });
            let needed = edge_count as usize;
            match built {
                Some(Reply { number: 0, .. }) if needed > edges / EDGE_PLACE => refused(12, needed),
                _ => None,
            }
        },
        "10 of the formula with 0": |table, formula, [_, _, lent, work]| {
            let is_asked = lent >= SMALLEST_LENGTH && work >= WORK_LENGTH;
            let reply = is_asked.then(|| with_enough(table, formula));
            let reply = reply.filter(|reply| (reply.number, reply.figure) == (10, 1));
            reply.map(|reply| Reply { figure: 0, ..reply })
        },
    }
}

/// With so many bytes more than are lent.
fn grown(lent: &[u8], length: usize) -> Vec<u8> {
    let mut grown = lent.to_vec();
    grown.resize(length, 0);
    grown
}

#[test]
fn lengths_that_are_too_short_and_taken_are_found() {
    all_are_found(&[
        wrong("32,515 bytes are enough", |table, formula, rows, edges, lent, work, count| {
            if lent.len() != SMALLEST_LENGTH - 1 {
                return smallest(table, formula, rows, edges, lent, work, count);
            }
            let mut whole = grown(lent, SMALLEST_LENGTH);
            let reply = smallest(table, formula, rows, edges, &mut whole, work, count);
            lent.copy_from_slice(&whole[..lent.len()]);
            reply
        }),
        wrong(
            "as many as are used are enough",
            |table, formula, rows, edges, lent, work, count| {
                if lent.len() < 4 || lent.len() >= SMALLEST_LENGTH {
                    return smallest(table, formula, rows, edges, lent, work, count);
                }
                let mut whole = grown(lent, SMALLEST_LENGTH);
                let reply = with_enough(table, formula);
                if reply.number != 0 {
                    return smallest(table, formula, rows, edges, lent, work, count);
                }
                let reply = smallest(table, formula, rows, edges, &mut whole, work, count);
                let used = used(&whole).min(lent.len());
                lent[..used].copy_from_slice(&whole[..used]);
                reply
            },
        ),
        wrong("524,287 bytes are enough", |table, formula, rows, edges, lent, work, count| {
            if work.len() != WORK_LENGTH - 1 {
                return smallest(table, formula, rows, edges, lent, work, count);
            }
            let mut whole = grown(work, WORK_LENGTH);
            let reply = smallest(table, formula, rows, edges, lent, &mut whole, count);
            work.copy_from_slice(&whole[..work.len()]);
            reply
        }),
        wrong("any length is enough for work", |table, formula, rows, edges, lent, work, count| {
            let mut whole = grown(work, work.len().max(WORK_LENGTH));
            let reply = smallest(table, formula, rows, edges, lent, &mut whole, count);
            work.copy_from_slice(&whole[..work.len()]);
            reply
        }),
    ]);
}
