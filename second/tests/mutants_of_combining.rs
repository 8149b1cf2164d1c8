//! Explainers that are wrong in one thing about two tables side by side, or about a table's text. The
//! gate's inputs find each of them.

mod common;

use std::collections::{BTreeMap, BTreeSet};

use common::found::all_are_found;
use second::baseline::{combine, table_text};
use second::combining::are_joined;
use second::entries::{Combine, Entries, NONE, SECOND, TableText};
use second::fuzz;
use second::prepared::{self, TABLE_LENGTH};
use second::reply::Reply;
use second::table::{MAX_LABELS, MAX_STATES, MAX_TEXT, MAX_TRANSITIONS, SILENT, Step, Table};

fn wrong(name: &'static str, entry: Combine) -> (&'static str, Entries) {
    (name, Entries { combine: Some(entry), ..NONE })
}

type Name = Vec<u8>;

/// A step from a pair to a pair; the silent step has no name.
type Arising = ((u8, u8), Name, (u8, u8));

struct Label<'a> {
    name: &'a Name,
    table: &'a Table,
    is_of_first: bool,
}

impl Label<'_> {
    fn is_used(&self) -> bool {
        is_used(self.name, self.table)
    }
}

fn are_partners(label: &Label, other: &Label) -> bool {
    are_joined(label.name, other.name)
}

/// What combining goes by; each fault is one of these in place of the right one.
#[derive(Clone, Copy)]
struct Rules {
    /// Of a label with one of the other table.
    joined: fn(&Label, &Label) -> bool,
    /// The name under which two joined labels move.
    joint: fn(&Name, &Name) -> Name,
    /// Whether a joined label moves alone from a state, beside one of the other table.
    lone: fn(&Name, &Table, u8) -> bool,
    /// More that arises, from all that does.
    more: fn(&Table, &Table) -> Vec<Arising>,
    /// The names of the result, from those that are right.
    names: fn(Vec<Name>, &Table, &Table) -> Vec<Name>,
    pair: fn(&Table, &Table, (u8, u8)) -> usize,
    start: fn(&Table, &Table) -> (u8, u8),
    /// The transitions, from those that are right, in turn, and all that arises.
    listed: fn(Vec<Step>, Vec<Step>) -> Vec<Step>,
    /// The number and figure, from the counts of pairs, labels, transitions and all that arises.
    refusal: fn([usize; 4]) -> Option<(u32, usize)>,
}

const RIGHT: Rules = Rules {
    joined: are_partners,
    joint: |name, other| name.min(other).clone(),
    lone: |_, _, _| false,
    more: |_, _| Vec::new(),
    names: |names, _, _| names,
    pair: |_, second, (i, j)| usize::from(i) * second.states + usize::from(j),
    start: |first, second| (first.start, second.start),
    listed: |steps, _| steps,
    refusal: |[pairs, labels, transitions, _]| match () {
        () if pairs > MAX_STATES => Some((17, pairs)),
        () if labels > MAX_LABELS => Some((18, labels)),
        () if transitions > MAX_TRANSITIONS => Some((19, transitions)),
        () => None,
    },
};

fn states(table: &Table) -> impl Iterator<Item = u8> + use<> {
    (0..table.states).map(|state| state as u8)
}

fn name_of(table: &Table, step: &Step) -> Name {
    match step.label {
        SILENT => Name::new(),
        label => table.names[usize::from(label) - 1].clone(),
    }
}

/// By each name of the first or the second table, those of the other that it is joined with.
fn partners(rules: &Rules, tables: [&Table; 2], of: usize) -> BTreeMap<Name, Vec<Name>> {
    let label = |side: usize, name| Label { name, table: tables[side], is_of_first: side == 0 };
    let joined = |name| {
        let others = tables[1 - of].names.iter();
        let others = others.filter(|other| (rules.joined)(&label(of, name), &label(1 - of, other)));
        (name.clone(), others.cloned().collect())
    };
    tables[of].names.iter().map(joined).collect()
}

fn arising(rules: &Rules, first: &Table, second: &Table) -> Vec<Arising> {
    let [with_second, with_first] = [0, 1].map(|of| partners(rules, [first, second], of));
    let is_joined = |partners: &BTreeMap<Name, Vec<Name>>, name: &Name| {
        partners.get(name).is_some_and(|others| !others.is_empty())
    };
    let mut all = Vec::new();
    for step in &first.transitions {
        let name = name_of(first, step);
        for j in states(second) {
            if !is_joined(&with_second, &name) || (rules.lone)(&name, second, j) {
                all.push(((step.from, j), name.clone(), (step.to, j)));
            }
        }
        for other in &second.transitions {
            let known = name_of(second, other);
            if with_second.get(&name).is_some_and(|others| others.contains(&known)) {
                let joint = (rules.joint)(&name, &known);
                all.push(((step.from, other.from), joint, (step.to, other.to)));
            }
        }
    }
    for step in &second.transitions {
        let name = name_of(second, step);
        for i in states(first) {
            if !is_joined(&with_first, &name) || (rules.lone)(&name, first, i) {
                all.push(((i, step.from), name.clone(), (i, step.to)));
            }
        }
    }
    all.extend((rules.more)(first, second));
    all
}

fn names(rules: &Rules, first: &Table, second: &Table) -> Vec<Name> {
    let mut names = BTreeSet::new();
    for of in 0..2 {
        for (name, others) in partners(rules, [first, second], of) {
            match others.first() {
                Some(known) => names.insert((rules.joint)(&name, known)),
                None => names.insert(name),
            };
        }
    }
    (rules.names)(names.into_iter().collect(), first, second)
}

/// The table by these rules; what is refused before them is right.
fn by(rules: &Rules, first: &[u8], second: &[u8], combined: &mut [u8]) -> Reply {
    let whole = combine(first, second, &mut combined.to_vec());
    if matches!(whole.number, 10 | 14) {
        return whole;
    }
    let [first, second] = [first, second].map(|bytes| prepared::table_of(bytes).expect("a table"));
    let pairs = first.states * second.states;
    let names = names(rules, &first, &second);
    // Far over the limit the right refusal stands, so that little is counted.
    if pairs > 2 * MAX_STATES {
        return match (rules.refusal)([pairs, names.len(), 0, 0]) {
            Some((number, figure)) => Reply { number, figure: figure as u64 },
            None => whole,
        };
    }
    let label = |name: &Name| match names.iter().position(|known| known == name) {
        Some(at) => at as u8 + 1,
        None => SILENT,
    };
    let all = arising(rules, &first, &second);
    let mut steps: Vec<(usize, u8, usize)> = (all.iter())
        .map(|(from, name, to)| {
            let [from, to] = [*from, *to].map(|pair| (rules.pair)(&first, &second, pair));
            (from, label(name), to)
        })
        .collect();
    steps.sort_unstable();
    let count = steps.len();
    let step = |&(from, label, to): &_| Step { from: from as u8, label, to: to as u8 };
    let all: Vec<Step> = steps.iter().map(step).collect();
    steps.dedup();
    let distinct: Vec<Step> = steps.iter().map(step).collect();
    if let Some((number, figure)) = (rules.refusal)([pairs, names.len(), distinct.len(), count]) {
        return Reply { number, figure: figure as u64 };
    }
    let mut transitions = (rules.listed)(distinct, all);
    transitions.truncate(MAX_TRANSITIONS);
    let start = (rules.pair)(&first, &second, (rules.start)(&first, &second)) as u8;
    let names = names.into_iter().take(MAX_LABELS).collect();
    let table = Table { states: pairs, start, names, transitions };
    combined[..TABLE_LENGTH].copy_from_slice(&prepared::table_bytes(&table));
    Reply::accepted(0)
}

/// By the rule that is wrong.
macro_rules! rules {
    ($($name:literal: { $rule:ident: $wrong:expr },)*) => {
        all_are_found(&[$(wrong($name, |first, second, combined| {
            by(&Rules { $rule: $wrong, ..RIGHT }, first, second, combined)
        })),*])
    };
}

#[test]
fn with_the_right_rules_no_fault_is_found() {
    let right: Combine = |first, second, combined| by(&RIGHT, first, second, combined);
    let right = Entries { combine: Some(right), ..NONE };
    assert_eq!(fuzz::run(&SECOND, &right, 61, 6_000, |_| ()), Ok(()));
}

fn is_used(name: &Name, table: &Table) -> bool {
    table.transitions.iter().any(|step| name_of(table, step) == *name)
}

fn stem(name: &Name) -> &[u8] {
    name.strip_suffix(b"!").or(name.strip_suffix(b"?")).unwrap_or(name)
}

#[test]
fn faults_in_which_labels_are_joined_are_found() {
    rules! {
        "only what the first sends": { joined: |label, other| {
            are_partners(label, other) && label.name.ends_with(b"!") == label.is_of_first
        } },
        "only what the first receives": { joined: |label, other| {
            are_partners(label, other) && label.name.ends_with(b"?") == label.is_of_first
        } },
        "none": { joined: |_, _| false },
        "equal names": { joined: |label, other| {
            are_partners(label, other) || label.name == other.name
        } },
        "equal names with marks": { joined: |label, other| {
            let is_marked = stem(label.name) != label.name.as_slice();
            are_partners(label, other) || label.name == other.name && is_marked
        } },
        "all of one stem": { joined: |label, other| stem(label.name) == stem(other.name) },
        "n and n!, n and n?": { joined: |label, other| {
            stem(label.name) == stem(other.name) && label.name != other.name
        } },
        "none that is on no transition": { joined: |label, other| {
            are_partners(label, other) && label.is_used() && other.is_used()
        } },
        "none if both are on no transition": { joined: |label, other| {
            are_partners(label, other) && (label.is_used() || other.is_used())
        } },
        "none of thirteen bytes": { joined: |label, other| {
            are_partners(label, other) && label.name.len() < 13
        } },
        "by the first eight bytes of the stem": { joined: |label, other| {
            let [beginning, known] =
                [label, other].map(|label| stem(label.name)[..stem(label.name).len().min(8)].to_vec());
            let marks = [label, other].map(|label| label.name[stem(label.name).len()..].to_vec());
            beginning == known && marks.concat().len() == 2 && marks[0] != marks[1]
        } },
        "none if both marks are in both tables": { joined: |label, other| {
            let has_both = |table: &Table| {
                [b"!", b"?"].iter().all(|mark| {
                    table.names.contains(&[stem(label.name), mark.as_slice()].concat())
                })
            };
            are_partners(label, other) && !(has_both(label.table) && has_both(other.table))
        } },
    }
}

#[test]
fn faults_in_how_labels_move_are_found() {
    rules! {
        "joined ones under n?": { joint: |name, other| name.max(other).clone() },
        "joined ones under the first one's name": { joint: |name, _| name.clone() },
        "joined ones under the stem": { joint: |name, _| stem(name).to_vec() },
        "a joined one alone too": { lone: |_, _, _| true },
        "a joined one alone where its partner has no transition": { lone: |name, other, state| {
            let joins = |step: &&Step| are_joined(name, &name_of(other, step));
            !other.transitions.iter().filter(joins).any(|step| step.from == state)
        } },
        "a joined one alone if its partner never moves": { lone: |name, other, _| {
            !other.transitions.iter().any(|step| are_joined(name, &name_of(other, step)))
        } },
        "a joined one alone where the other has no transition at all": { lone: |_, other, state| {
            !other.transitions.iter().any(|step| step.from == state)
        } },
        "silent steps together too": { more: |first, second| {
            let silent = |table: &Table| -> Vec<Step> {
                table.transitions.iter().filter(|step| step.label == SILENT).copied().collect()
            };
            let together = |(one, other): (Step, Step)| {
                ((one.from, other.from), Name::new(), (one.to, other.to))
            };
            let others = silent(second);
            let pairs = silent(first).into_iter();
            pairs.flat_map(|one| others.iter().map(move |other| (one, *other))).map(together).collect()
        } },
        "idle steps as silent ones": { more: |first, second| {
            let idle = |table: &Table| -> Vec<u8> {
                let steps = &table.transitions;
                states(table).filter(|state| steps.iter().all(|step| step.from != *state)).collect()
            };
            let mut more = Vec::new();
            for i in idle(first) {
                more.extend(states(second).map(|j| ((i, j), Name::new(), (i, j))));
            }
            for j in idle(second) {
                more.extend(states(first).map(|i| ((i, j), Name::new(), (i, j))));
            }
            more
        } },
        "idle steps of pairs whose states are both idle": { more: |first, second| {
            let is_idle = |table: &Table, state: u8| {
                table.transitions.iter().all(|step| step.from != state)
            };
            let idle = states(first).filter(|i| is_idle(first, *i));
            let pairs = idle.flat_map(|i| states(second).map(move |j| (i, j)));
            pairs.filter(|(_, j)| is_idle(second, *j)).map(|pair| (pair, Name::new(), pair)).collect()
        } },
    }
}

/// The names that a right result has and that stand on some transition.
fn used(names: Vec<Name>, first: &Table, second: &Table) -> Vec<Name> {
    let all = arising(&RIGHT, first, second);
    names.into_iter().filter(|name| all.iter().any(|(_, known, _)| known == name)).collect()
}

#[test]
fn faults_in_the_names_of_the_result_are_found() {
    rules! {
        "one that is on no transition is dropped": { names: used },
        "one that is on no transition of its table is dropped": { names: |names, first, second| {
            let is_used = |name: &Name| {
                [first, second].iter().any(|table| {
                    table.names.iter().any(|known| stem(known) == stem(name) && is_used(known, table))
                })
            };
            names.into_iter().filter(is_used).collect()
        } },
        "shorter ones first": { names: |mut names, _, _| {
            names.sort_by_key(|name| (name.len(), name.clone()));
            names
        } },
        "longer ones first, where one begins the other": { names: |mut names, _, _| {
            let key = |name: &Name| [name.as_slice(), b"\x7f"].concat();
            names.sort_by_key(key);
            names
        } },
        "by their stems": { names: |mut names, _, _| {
            names.sort_by_key(|name| (stem(name).to_vec(), name.len(), name.clone()));
            names
        } },
        "letters before digits and underscores": { names: |mut names, _, _| {
            let key = |name: &Name| -> Vec<u8> {
                let turned = |&byte: &u8| if byte.is_ascii_lowercase() { byte - 64 } else { byte + 32 };
                name.iter().map(turned).collect()
            };
            names.sort_by_key(key);
            names
        } },
        "by their first eight bytes": { names: |mut names, first, _| {
            let place = |name: &Name| first.names.iter().position(|known| known == name);
            names.sort_by_key(|name| (name[..name.len().min(8)].to_vec(), place(name)));
            names
        } },
        "those of the first table, then others": { names: |names, first, _| {
            let mut kept: Vec<Name> =
                first.names.iter().filter(|name| names.contains(name)).cloned().collect();
            kept.extend(names.into_iter().filter(|name| !first.names.contains(name)));
            kept
        } },
        "the last of forty is lost": { names: |mut names, _, _| {
            if names.len() == MAX_LABELS {
                names.pop();
            }
            names
        } },
        "n? beside n! for a joined pair": { names: |mut names, first, second| {
            for of in 0..2 {
                let partners = partners(&RIGHT, [first, second], of).into_iter();
                names.extend(partners.filter(|(_, others)| !others.is_empty()).map(|(name, _)| name));
            }
            names.sort_unstable();
            names.dedup();
            names
        } },
        "a lone n? beside a joint n! is lost": { names: |mut names, first, second| {
            names.retain(|name| {
                let sent = [stem(name), b"!"].concat();
                !(name.ends_with(b"?") && first.names.contains(&sent) && !second.names.contains(&sent))
            });
            names
        } },
        "equal names twice": { names: |mut names, first, second| {
            names.extend(first.names.iter().filter(|name| second.names.contains(name)).cloned());
            names.sort_unstable();
            names
        } },
    }
}

#[test]
fn faults_in_the_numbers_of_pairs_are_found() {
    rules! {
        "i + j x states of the first": { pair: |first, _, (i, j)| {
            usize::from(i) + usize::from(j) * first.states
        } },
        "i + j x states of the second": { pair: |_, second, (i, j)| {
            usize::from(i) + usize::from(j) * second.states
        } },
        "i x states of the first + j": { pair: |first, _, (i, j)| {
            usize::from(i) * first.states + usize::from(j)
        } },
        "the second's start alone": { start: |_, second| (0, second.start) },
        "the first's start alone": { start: |first, _| (first.start, 0) },
        "the starts exchanged": { start: |first, second| {
            (second.start.min((first.states - 1) as u8), first.start.min((second.states - 1) as u8))
        } },
        "both start at 0": { start: |_, _| (0, 0) },
    }
}

#[test]
fn faults_in_the_list_of_transitions_are_found() {
    rules! {
        "each as often as it arises": { listed: |_, all| all },
        "none that arises twice": { listed: |steps, all| {
            let times = |step: &Step| all.iter().filter(|other| *other == step).count();
            steps.into_iter().filter(|step| times(step) == 1).collect()
        } },
        "labels from 0": { listed: |mut steps, _| {
            steps.iter_mut().for_each(|step| step.label = step.label.saturating_sub(1));
            steps.sort_unstable();
            steps
        } },
        "by from, to and label": { listed: |mut steps, _| {
            steps.sort_by_key(|step| (step.from, step.to, step.label));
            steps
        } },
        "by label": { listed: |mut steps, _| {
            steps.sort_by_key(|step| (step.label, step.from, step.to));
            steps
        } },
        "targets fall": { listed: |mut steps, _| {
            steps.sort_by_key(|step| (step.from, step.label, 255 - step.to));
            steps
        } },
        "targets as signed bytes": { listed: |mut steps, _| {
            steps.sort_by_key(|step| (step.from, step.label, step.to.cast_signed()));
            steps
        } },
        "the last of 1,024 is lost": { listed: |mut steps, _| {
            if steps.len() == MAX_TRANSITIONS {
                steps.pop();
            }
            steps
        } },
        "only from pairs that the first one with a step leads to": { listed: |steps, _| {
            let mut reached = BTreeSet::from([steps.first().map_or(0, |step| step.from)]);
            while let Some(step) =
                steps.iter().find(|step| reached.contains(&step.from) && !reached.contains(&step.to))
            {
                reached.insert(step.to);
            }
            steps.into_iter().filter(|step| reached.contains(&step.from)).collect()
        } },
        "none from pair 255": { listed: |steps, _| {
            steps.into_iter().filter(|step| step.from < u8::MAX).collect()
        } },
        "none to pair 64 and above": { listed: |steps, _| {
            steps.into_iter().filter(|step| step.to < 64).collect()
        } },
        "none by label 32 and above": { listed: |steps, _| {
            steps.into_iter().filter(|step| step.label < 32).collect()
        } },
    }
}

/// The first of these that is so.
fn first(refusals: &[(u32, usize, usize)]) -> Option<(u32, usize)> {
    let over = refusals.iter().find(|(_, count, most)| count > most);
    over.map(|&(number, count, _)| (number, count))
}

#[test]
fn faults_in_what_is_too_much_are_found() {
    const STATES: usize = MAX_STATES;
    const LABELS: usize = MAX_LABELS;
    const STEPS: usize = MAX_TRANSITIONS;
    rules! {
        "18 before 17": { refusal: |[pairs, labels, steps, _]| {
            first(&[(18, labels, LABELS), (17, pairs, STATES), (19, steps, STEPS)])
        } },
        "19 before 18": { refusal: |[pairs, labels, steps, _]| {
            first(&[(17, pairs, STATES), (19, steps, STEPS), (18, labels, LABELS)])
        } },
        "19 before 17": { refusal: |[pairs, labels, steps, _]| {
            first(&[(19, steps, STEPS), (17, pairs, STATES), (18, labels, LABELS)])
        } },
        "256 pairs are too many": { refusal: |[pairs, labels, steps, _]| {
            first(&[(17, pairs, STATES - 1), (18, labels, LABELS), (19, steps, STEPS)])
        } },
        "40 labels are too many": { refusal: |[pairs, labels, steps, _]| {
            first(&[(17, pairs, STATES), (18, labels, LABELS - 1), (19, steps, STEPS)])
        } },
        "1,024 transitions are too many": { refusal: |[pairs, labels, steps, _]| {
            first(&[(17, pairs, STATES), (18, labels, LABELS), (19, steps, STEPS - 1)])
        } },
        "258 pairs are not": { refusal: |[pairs, labels, steps, _]| {
            first(&[(17, pairs, STATES + 2), (18, labels, LABELS), (19, steps, STEPS)])
        } },
        "41 labels are not": { refusal: |[pairs, labels, steps, _]| {
            first(&[(17, pairs, STATES), (18, labels, LABELS + 1), (19, steps, STEPS)])
        } },
        "1,025 transitions are not": { refusal: |[pairs, labels, steps, _]| {
            first(&[(17, pairs, STATES), (18, labels, LABELS), (19, steps, STEPS + 1)])
        } },
        "all that arises is counted": { refusal: |[pairs, labels, _, all]| {
            first(&[(17, pairs, STATES), (18, labels, LABELS), (19, all, STEPS)])
        } },
        "all that arises is told": { refusal: |[pairs, labels, steps, all]| {
            let told = RIGHT.refusal;
            told([pairs, labels, steps, all])
                .map(|(number, figure)| (number, if number == 19 { all } else { figure }))
        } },
        "counting stops at 1,025": { refusal: |[pairs, labels, steps, all]| {
            (RIGHT.refusal)([pairs, labels, steps.min(STEPS + 1), all])
        } },
        "counting stops at 41 labels": { refusal: |[pairs, labels, steps, all]| {
            (RIGHT.refusal)([pairs, labels.min(LABELS + 1), steps, all])
        } },
        "the low two bytes of the count of transitions": { refusal: |counts| {
            (RIGHT.refusal)(counts)
                .map(|(number, figure)| (number, if number == 19 { figure % 65_536 } else { figure }))
        } },
        "the low byte of the count of pairs": { refusal: |[pairs, labels, steps, all]| {
            (RIGHT.refusal)([pairs % 512, labels, steps, all])
        } },
        "257 pairs are told": { refusal: |counts| {
            (RIGHT.refusal)(counts)
                .map(|(number, figure)| (number, if number == 17 { STATES + 1 } else { figure }))
        } },
    }
}

/// By the counts of states as they stand there.
fn too_many_pairs(first: &[u8], second: &[u8]) -> Option<Reply> {
    let states = |table: &[u8]| u64::from(u16::from_le_bytes([table[0], table[1]]));
    let pairs = states(first) * states(second);
    (pairs > MAX_STATES as u64).then_some(Reply { number: 17, figure: pairs })
}

/// What is answered if all buffers are long.
fn with_enough(first: &[u8], second: &[u8]) -> Reply {
    let whole = [first, second].map(|table| {
        let mut table = table.to_vec();
        table.resize(table.len().max(TABLE_LENGTH), 0);
        table
    });
    combine(&whole[0], &whole[1], &mut [0; TABLE_LENGTH])
}

fn bytes_of<const AT: usize>(table: &[u8]) -> Vec<u8> {
    let mut table = table.to_vec();
    if let Some(byte) = table.get_mut(AT).filter(|byte| **byte != 0) {
        *byte = 0;
    }
    table
}

#[test]
fn faults_in_what_is_refused_before_are_found() {
    all_are_found(&[
        wrong("10 of the first before 14 of the second", |first, second, combined| {
            match first.len() >= TABLE_LENGTH && prepared::table_of(first).is_none() {
                true => Reply { number: 10, figure: 0 },
                false => combine(first, second, combined),
            }
        }),
        wrong("10 before 14 of the combined", |first, second, combined| {
            match first.len().min(second.len()) >= TABLE_LENGTH {
                true if with_enough(first, second).number == 10 => with_enough(first, second),
                _ => combine(first, second, combined),
            }
        }),
        wrong("17 before 14 of the combined", |first, second, combined| {
            match first.len().min(second.len()) >= TABLE_LENGTH {
                true if with_enough(first, second).number == 17 => with_enough(first, second),
                _ => combine(first, second, combined),
            }
        }),
        wrong("17 before 10", |first, second, combined| {
            let reply = combine(first, second, combined);
            if reply.number == 10 { too_many_pairs(first, second).unwrap_or(reply) } else { reply }
        }),
        wrong("17 before 10 of the second", |first, second, combined| {
            let reply = combine(first, second, combined);
            match reply.number {
                10 if prepared::table_of(first).is_some() => {
                    too_many_pairs(first, second).unwrap_or(reply)
                }
                _ => reply,
            }
        }),
        wrong("10 with 1 for the second", |first, second, combined| {
            let reply = combine(first, second, combined);
            match reply.number {
                10 if prepared::table_of(first).is_some() => Reply { figure: 1, ..reply },
                _ => reply,
            }
        }),
        wrong("the first is not looked at", |first, second, combined| {
            let reply = combine(first, second, combined);
            match reply.number {
                10 if prepared::table_of(second).is_some() => Reply::accepted(0),
                _ => reply,
            }
        }),
        wrong("the second is not looked at", |first, second, combined| {
            let reply = combine(first, second, combined);
            match reply.number {
                10 if prepared::table_of(first).is_some() => Reply::accepted(0),
                _ => reply,
            }
        }),
        wrong("the first's last byte is not looked at", |first, second, combined| {
            combine(&bytes_of::<{ TABLE_LENGTH - 1 }>(first), second, combined)
        }),
        wrong("the second's last byte is not looked at", |first, second, combined| {
            combine(first, &bytes_of::<{ TABLE_LENGTH - 1 }>(second), combined)
        }),
        wrong("the second's last name byte is not looked at", |first, second, combined| {
            combine(first, &bytes_of::<645>(second), combined)
        }),
        wrong("a byte is missing of the first", |first, second, combined| match first.len() {
            3_717 => combine(&[first, &[0]].concat(), second, combined),
            _ => combine(first, second, combined),
        }),
        wrong("a byte is missing of the second", |first, second, combined| match second.len() {
            3_717 => combine(first, &[second, &[0]].concat(), combined),
            _ => combine(first, second, combined),
        }),
        wrong("a byte is missing of the combined", |first, second, combined| {
            match combined.len() {
                3_717 => {
                    let mut lent = [combined, &[0][..]].concat();
                    let reply = combine(first, second, &mut lent);
                    combined.copy_from_slice(&lent[..3_717]);
                    reply
                }
                _ => combine(first, second, combined),
            }
        }),
        wrong("the needed length is that of a text", |first, second, combined| {
            match combine(first, second, combined) {
                reply @ Reply { number: 14, .. } => Reply { figure: 20_321, ..reply },
                reply => reply,
            }
        }),
    ]);
}

/// By what becomes of the buffer, of what stood in it and of the reply.
macro_rules! written {
    ($($name:literal: $change:expr,)*) => {
        all_are_found(&[$(wrong($name, |first, second, combined| {
            let before = combined.to_vec();
            let reply = combine(first, second, combined);
            let change: fn(Reply, &[u8], &[u8], &mut [u8]) -> u64 = $change;
            Reply { figure: change(reply, first, &before, combined), ..reply }
        })),*])
    };
}

#[test]
fn faults_in_what_is_written_are_found() {
    written! {
        "a byte past the length is cleared": |reply, _, _, combined| {
            if let (0, Some(byte)) = (reply.number, combined.get_mut(TABLE_LENGTH)) {
                *byte = 0;
            }
            reply.figure
        },
        "unused slots stay as they were": |reply, _, before, combined| {
            if reply.number == 0 {
                let used = 646 + 3 * usize::from(u16::from_le_bytes([combined[3], combined[4]]));
                combined[used..].copy_from_slice(&before[used..]);
            }
            reply.figure
        },
        "unused name slots stay as they were": |reply, _, before, combined| {
            if reply.number == 0 {
                let used = 6 + 16 * usize::from(combined[2]);
                combined[used..646].copy_from_slice(&before[used..646]);
            }
            reply.figure
        },
        "the last byte is not written": |reply, _, before, combined| {
            if reply.number == 0 {
                combined[TABLE_LENGTH - 1] = before[TABLE_LENGTH - 1];
            }
            reply.figure
        },
        "the figure is the count of transitions": |reply, _, _, combined| match reply.number {
            0 => u16::from_le_bytes([combined[3], combined[4]]).into(),
            _ => reply.figure,
        },
        "on 19 the first 1,024 are written": |reply, _, _, combined| {
            if reply.number == 19 {
                combined[3..5].copy_from_slice(&1_024u16.to_le_bytes());
            }
            reply.figure
        },
        "on 18 the names are written": |reply, first, _, combined| {
            if reply.number == 18 {
                combined[6..22].copy_from_slice(&first[6..22]);
            }
            reply.figure
        },
        "on 17 the count of pairs is written": |reply, _, _, combined| {
            if reply.number == 17 {
                combined[..2].copy_from_slice(&(reply.figure as u16).to_le_bytes());
            }
            reply.figure
        },
        "on 10 the buffer is cleared": |reply, _, _, combined| {
            if reply.number == 10 {
                combined.fill(0);
            }
            reply.figure
        },
        "on 14 the buffer is cleared": |reply, _, _, combined| {
            if reply.number == 14 {
                combined.fill(0);
            }
            reply.figure
        },
    }
}

fn mistyped(name: &'static str, entry: TableText) -> (&'static str, Entries) {
    (name, Entries { table_text: Some(entry), ..NONE })
}

/// By what becomes of the text of a table; refusals are right.
fn retyped(table: &[u8], text: &mut [u8], retype: impl Fn(&Table, Vec<u8>) -> Vec<u8>) -> Reply {
    let before = text.to_vec();
    let reply = table_text(table, text);
    if reply.number != 0 {
        return reply;
    }
    let right = text[..reply.figure as usize].to_vec();
    text.copy_from_slice(&before);
    let other = retype(&prepared::table_of(table).expect("a table"), right);
    let length = other.len().min(text.len());
    text[..length].copy_from_slice(&other[..length]);
    Reply::accepted(other.len() as u64)
}

macro_rules! retyped {
    ($($name:literal: $retype:expr,)*) => {
        all_are_found(&[$(mistyped($name, |table, text| {
            let retype: fn(&Table, Vec<u8>) -> Vec<u8> = $retype;
            retyped(table, text, retype)
        })),*])
    };
}

#[test]
fn faults_in_the_text_of_a_table_are_found() {
    retyped! {
        "the last line's end is missing": |_, mut text| {
            text.pop();
            text
        },
        "one more line's end": |_, mut text| {
            text.push(b'\n');
            text
        },
        "the start is 0": |table, _| Table { start: 0, ..table.clone() }.text(),
        "states, labels, transitions and start in another order": |_, mut text| {
            text[..12].rotate_left(6);
            text
        },
        "labels from 0": |table, text| match table.labels() {
            0 => text,
            _ => {
                let mut text = text;
                text[30] = b'0';
                text
            }
        },
        "names without marks": |table, text| {
            let names = table.names.iter().map(|name| stem(name).to_vec()).collect();
            let other = Table { names, ..table.clone() };
            if other == *table { text } else { other.text() }
        },
        "names of thirteen bytes without marks": |table, text| {
            let cut = |name: &Name| name[..name.len().min(12)].to_vec();
            let names = table.names.iter().map(cut).collect();
            let other = Table { names, ..table.clone() };
            if other == *table { text } else { other.text() }
        },
        "idle steps are written": |table, _| {
            let mut table = table.clone();
            for state in states(&table) {
                if table.transitions.iter().all(|step| step.from != state) {
                    table.transitions.push(Step { from: state, label: SILENT, to: state });
                }
            }
            table.transitions.sort_unstable();
            table.text()
        },
        "leading zeros": |_, mut text| {
            text[4] = if text[4] == b' ' { b'0' } else { text[4] };
            text
        },
        "256 states are written as 0": |table, text| match table.states {
            MAX_STATES => {
                let mut text = text;
                text[3..6].copy_from_slice(b"  0");
                text
            }
            _ => text,
        },
        "1,024 transitions are written as 1,023": |table, text| match table.transitions.len() {
            MAX_TRANSITIONS => {
                let mut text = text;
                text[17] = b'3';
                text
            }
            _ => text,
        },
        "from and to exchanged": |table, mut text| {
            let steps = table.transitions.len();
            let first = text.len() - 19 * steps;
            for line in text[first..].chunks_mut(19) {
                for at in 0..6 {
                    line.swap(at, at + 12);
                }
            }
            text
        },
        "numbers from 100 on lose a digit": |table, mut text| {
            let first = text.len() - 19 * table.transitions.len();
            text[first..].chunks_mut(19).for_each(|line| line[3] = b' ');
            text
        },
    }
    all_are_found(&[
        mistyped("the figure is one less", |table, text| match table_text(table, text) {
            Reply { number: 0, figure } => Reply::accepted(figure - 1),
            reply => reply,
        }),
        mistyped("the figure is 0", |table, text| match table_text(table, text) {
            Reply { number: 0, .. } => Reply::accepted(0),
            reply => reply,
        }),
        mistyped("a byte behind the text is cleared", |table, text| {
            let reply = table_text(table, text);
            if let (0, Some(byte)) = (reply.number, text.get_mut(reply.figure as usize)) {
                *byte = 0;
            }
            reply
        }),
        mistyped("20,321 bytes are written", |table, text| {
            let reply = table_text(table, text);
            if reply.number == 0 {
                text[reply.figure as usize..MAX_TEXT].fill(0);
            }
            reply
        }),
        mistyped("the last of 20,321 bytes is not written", |table, text| {
            let before = text.get(MAX_TEXT - 1).copied();
            let reply = table_text(table, text);
            if let (Reply { number: 0, figure: 20_321 }, Some(byte)) = (reply, before) {
                text[MAX_TEXT - 1] = byte;
            }
            reply
        }),
        mistyped("as many bytes as the text has are enough", |table, text| {
            let mut lent = text.to_vec();
            lent.resize(text.len().max(MAX_TEXT), 0);
            match table_text(table, &mut lent) {
                reply @ Reply { number: 0, figure } if figure <= text.len() as u64 => {
                    text.copy_from_slice(&lent[..text.len()]);
                    reply
                }
                _ => table_text(table, text),
            }
        }),
        mistyped("20,320 bytes are enough", |table, text| match text.len() {
            20_320 => {
                let mut lent = [text, &[0][..]].concat();
                let reply = table_text(table, &mut lent);
                text.copy_from_slice(&lent[..20_320]);
                reply
            }
            _ => table_text(table, text),
        }),
        mistyped("20,321 are not", |table, text| match (table.len() >= TABLE_LENGTH, text.len()) {
            (true, MAX_TEXT) => Reply { number: 14, figure: 20_322 },
            _ => table_text(table, text),
        }),
        mistyped("the needed length is that of a table", |table, text| {
            match table_text(table, text) {
                reply @ Reply { number: 14, .. } => Reply { figure: 3_718, ..reply },
                reply => reply,
            }
        }),
        mistyped("14 of the text before 14 of the table", |table, text| match text.len() {
            0..MAX_TEXT => Reply { number: 14, figure: MAX_TEXT as u64 },
            _ => table_text(table, text),
        }),
        mistyped("10 before 14 of the text", |table, text| {
            match table.len() >= TABLE_LENGTH && prepared::table_of(table).is_none() {
                true => Reply { number: 10, figure: 0 },
                false => table_text(table, text),
            }
        }),
        mistyped("the table's last byte is not looked at", |table, text| match prepared::table_of(
            &[table, &[0; TABLE_LENGTH]].concat(),
        ) {
            None => table_text(&bytes_of::<{ TABLE_LENGTH - 1 }>(table), text),
            Some(_) => table_text(table, text),
        }),
        mistyped("a table one byte short is taken", |table, text| match table.len() {
            3_717 => table_text(&[table, &[0]].concat(), text),
            _ => table_text(table, text),
        }),
        mistyped("on 10 a byte is written", |table, text| {
            let reply = table_text(table, text);
            if reply.number == 10 {
                text[0] = b' ';
            }
            reply
        }),
        mistyped("on 14 the text is written as far as it fits", |table, text| {
            let mut lent = vec![0; MAX_TEXT];
            let whole = table_text(table, &mut lent);
            let reply = table_text(table, text);
            if (whole.number, reply.number) == (0, 14) {
                let fit = text.len().min(whole.figure as usize);
                text[..fit].copy_from_slice(&lent[..fit]);
            }
            reply
        }),
    ]);
}
