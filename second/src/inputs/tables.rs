//! Random state tables, and prepared tables.

use std::collections::BTreeSet;

use super::alike;
use super::bytes::TELLING;
use super::kinds::{self, Kinds, Way, must, way};
use super::rng::Rng;
use crate::prepared::{NAME_SLOT, NAMES, TABLE_LENGTH, TRANSITION_SLOT, TRANSITIONS};
use crate::table::{
    IDLE, MARKS, MAX_LABELS, MAX_STATES, MAX_STEM, MAX_TRANSITIONS, SILENT, Step, Table,
};
use crate::tally::Expected;

#[derive(Clone, Copy, PartialEq, Eq)]
pub enum Size {
    Small,
    Medium,
    /// The most states and labels, but few transitions.
    Cornered,
    Limit,
}

impl Size {
    pub const NAMES: [&str; 4] = ["small", "medium", "cornered", "at the limits"];

    pub fn name(self) -> &'static str {
        Size::NAMES[self as usize]
    }
}

/// Mostly small; one in `rarity` at the limits.
pub fn size(rng: &mut Rng, rarity: usize) -> Size {
    match rng.below(rarity) {
        0 => Size::Limit,
        _ if rng.one_in(16) => Size::Medium,
        _ if rng.one_in(16) => Size::Cornered,
        _ => Size::Small,
    }
}

pub fn table(rng: &mut Rng, kinds: &mut Kinds, size: Size) -> Table {
    let (states, labels, transitions) = match size {
        Size::Small => (rng.between(1, 6), rng.below(5), rng.below(13)),
        Size::Medium => (rng.between(1, 40), rng.below(13), rng.below(121)),
        Size::Cornered => return cornered(rng, kinds),
        Size::Limit if rng.one_in(3) => return drawn_out(rng, kinds),
        Size::Limit => (
            rng.pick(&[1, 255, MAX_STATES, MAX_STATES, MAX_STATES]),
            rng.pick(&[0, 1, MAX_LABELS - 1, MAX_LABELS, MAX_LABELS]),
            rng.pick(&[0, 300, MAX_TRANSITIONS - 1, MAX_TRANSITIONS, MAX_TRANSITIONS]),
        ),
    };
    let table = with_counts(rng, kinds, states, labels, transitions);
    match size {
        Size::Limit => table,
        _ => with_any_exits(rng, kinds, &table),
    }
}

const TABLE: &str = "table of a size";
const LONGEST: &str = "of the longest text";

/// One in 40 has the longest text, one in 40 is at other limits.
pub fn of_any_size(rng: &mut Rng, kinds: &mut Kinds) -> Table {
    if rng.one_in(40) {
        kinds.note(TABLE, LONGEST);
        return longest_table(rng);
    }
    let size = size(rng, 40);
    kinds.note(TABLE, size.name());
    let table = table(rng, kinds, size);
    with_any_names(rng, kinds, table)
}

/// All that `of_any_size` must have made.
pub fn expected_sizes() -> Vec<Expected> {
    Size::NAMES.into_iter().chain([LONGEST]).map(|name| must(TABLE, name, &[0])).collect()
}

/// Transitions among the lowest and highest states, by the lowest and highest labels only.
fn cornered(rng: &mut Rng, kinds: &mut Kinds) -> Table {
    const STATES: [u8; 4] = [0, 1, 254, 255];
    const LABELS: [u8; 4] = [0, 1, 39, 40];
    let steps = rng.between(1, 20);
    let step =
        |_| Step { from: rng.pick(&STATES), label: rng.pick(&LABELS), to: rng.pick(&STATES) };
    let steps: BTreeSet<Step> = (0..steps).map(step).collect();
    Table {
        states: MAX_STATES,
        start: rng.pick(&STATES),
        names: names(rng, kinds, MAX_LABELS),
        transitions: steps.into_iter().collect(),
    }
}

/// The most states in one line or ring, with a few steps aside.
fn drawn_out(rng: &mut Rng, kinds: &mut Kinds) -> Table {
    let labels = rng.pick(&[0, 1, 2, MAX_LABELS]);
    let label = |rng: &mut Rng| rng.below(labels + 1) as u8;
    let mut steps = BTreeSet::new();
    for from in 0..rng.pick(&[u8::MAX, u8::MAX - 1]) {
        steps.insert(Step { from, label: label(rng), to: from + 1 });
    }
    for _ in 0..rng.below(4) {
        let (from, to) = (rng.below(MAX_STATES) as u8, rng.below(MAX_STATES) as u8);
        steps.insert(Step { from, label: label(rng), to });
    }
    Table {
        states: MAX_STATES,
        start: rng.pick(&[0, 0, 128, u8::MAX]),
        names: names(rng, kinds, labels),
        transitions: steps.into_iter().collect(),
    }
}

/// As many transitions as so many states and labels allow.
pub fn with_counts(
    rng: &mut Rng,
    kinds: &mut Kinds,
    states: usize,
    labels: usize,
    transitions: usize,
) -> Table {
    let possible = states * states * (labels + 1);
    let wanted = transitions.min(possible - possible / 4);
    let mut steps = BTreeSet::new();
    while steps.len() < wanted {
        steps.insert(Step {
            from: rng.below(states) as u8,
            label: rng.below(labels + 1) as u8,
            to: rng.below(states) as u8,
        });
    }
    Table {
        states,
        start: rng.below(states) as u8,
        names: names(rng, kinds, labels),
        transitions: steps.into_iter().collect(),
    }
}

/// The table if it has so many labels, another with five if not.
pub fn with_labels(rng: &mut Rng, table: &Table, least: usize) -> Table {
    match table.labels() < least {
        true => with_counts(rng, &mut Kinds::default(), 4, 5, 9),
        false => table.clone(),
    }
}

pub const EXITS: &str = "exits";

/// Which states have exits, in a table with room for more transitions. The last way needs two states.
pub const EXITS_OF: [Way<Table, Table>; 5] = [
    way("as drawn", 5, &[0], |_, table| table.clone()),
    way("of every state", 1, &[0], |rng, table| {
        let exit = |from| {
            let to = rng.below(table.states) as u8;
            a_step(rng, table, from, to)
        };
        with_steps(table, &[], without_exits(table).map(exit).collect())
    }),
    way("silent loops in place of idle steps", 1, &[0], |_, table| {
        with_steps(table, &[], without_exits(table).map(silent_loop).collect())
    }),
    way("none of a state next to the start", 3, &[0], |rng, table| {
        let still = rng.below(table.states) as u8;
        let into = (table.start != still).then(|| a_step(rng, table, table.start, still));
        with_steps(table, &[still], Vec::from_iter(into))
    }),
    way("a silent loop beside an idle step", 2, &[0], |rng, table| {
        let still = rng.below(table.states) as u8;
        let [start, looping] = [(); 2].map(|()| another_state(rng, table, still));
        let into = [looping, still].map(|to| a_step(rng, table, start, to));
        let steps = [vec![silent_loop(looping)], into.to_vec()].concat();
        Table { start, ..with_steps(table, &[still, looping], steps) }
    }),
];

/// With exits of some states or of all.
pub fn with_any_exits(rng: &mut Rng, kinds: &mut Kinds, table: &Table) -> Table {
    let ways = if table.states > 1 { &EXITS_OF } else { &EXITS_OF[..EXITS_OF.len() - 1] };
    kinds.make(rng, EXITS, ways, table)
}

fn without_exits(table: &Table) -> impl Iterator<Item = u8> {
    let has_exit = |state| table.transitions.iter().any(|step| step.from == state);
    (0..table.states).map(|state| state as u8).filter(move |&state| !has_exit(state))
}

/// With these in place of all that leave some states.
pub fn with_steps(table: &Table, leaving: &[u8], more: Vec<Step>) -> Table {
    let kept = table.transitions.iter().filter(|step| !leaving.contains(&step.from));
    let steps: BTreeSet<Step> = kept.copied().chain(more).collect();
    Table { transitions: steps.into_iter().collect(), ..table.clone() }
}

fn a_step(rng: &mut Rng, table: &Table, from: u8, to: u8) -> Step {
    Step { from, label: rng.below(table.labels() + 1) as u8, to }
}

pub fn silent_loop(state: u8) -> Step {
    Step { from: state, label: SILENT, to: state }
}

fn another_state(rng: &mut Rng, table: &Table, state: u8) -> u8 {
    ((usize::from(state) + rng.between(1, table.states - 1)) % table.states) as u8
}

pub const NAMED: &str = "names";

/// The names of so many labels. The last way needs three.
pub const NAMES_OF: [Way<usize, Vec<Vec<u8>>>; 6] = [
    way("without marks", 4, &[0], |rng, &labels| {
        let longest = longest(rng);
        different(rng, labels, |rng| name(rng, longest))
    }),
    way("with marks and without", 4, &[0], |rng, &labels| {
        let longest = longest(rng);
        different(rng, labels, |rng| {
            let end = rng.pick(&[b"".as_slice(), b"?", b"!"]);
            [&name(rng, longest), end].concat()
        })
    }),
    way("all received", 1, &[0], |rng, &labels| {
        let longest = longest(rng);
        different(rng, labels, |rng| marked(name(rng, longest), b'?'))
    }),
    way("all sent", 1, &[0], |rng, &labels| {
        let longest = longest(rng);
        different(rng, labels, |rng| marked(name(rng, longest), b'!'))
    }),
    way("of twelve letters and a mark", 2, &[0], |rng, &labels| {
        different(rng, labels, |rng| {
            let stem = loop {
                let stem = name(rng, MAX_STEM);
                if stem.len() == MAX_STEM {
                    break stem;
                }
            };
            marked(stem, rng.pick(&MARKS))
        })
    }),
    way("three of each stem", 3, &[0], |rng, &labels| {
        let longest = longest(rng);
        let stems = different(rng, labels.div_ceil(3), |rng| name(rng, longest));
        let three = |stem: &Vec<u8>| {
            let [received, sent] = MARKS.map(|mark| marked(stem.clone(), mark));
            [stem.clone(), received, sent]
        };
        let mut names: Vec<Vec<u8>> = stems.iter().flat_map(three).collect();
        names.truncate(labels);
        rng.shuffle(&mut names);
        names
    }),
];

const NEAR: &str = "nearly equal";

/// One table in eight has other names, which nearly equal each other.
pub fn with_any_names(rng: &Rng, kinds: &mut Kinds, mut table: Table) -> Table {
    let aside = &mut rng.aside(NAMED);
    if table.labels() > 0 && aside.one_in(8) {
        kinds.note_instead(NAMED, NEAR);
        table.names = alike::names(aside, table.labels());
    }
    table
}

/// All names that `with_any_names` must have left or made.
pub fn expected_names() -> Vec<Expected> {
    let mut expected = kinds::expected(NAMED, &NAMES_OF);
    expected.push(must(NAMED, NEAR, &[0]));
    expected
}

/// A small table with all three names of some stem.
pub fn with_three_of_a_stem(rng: &mut Rng) -> Table {
    let labels = rng.between(3, 6);
    let mut table = with_counts(rng, &mut Kinds::default(), 4, labels, 9);
    let [.., three] = &NAMES_OF;
    table.names = (three.make)(rng, &labels);
    table
}

/// In one of these ways, if there are any.
fn names(rng: &mut Rng, kinds: &mut Kinds, labels: usize) -> Vec<Vec<u8>> {
    match labels {
        0 => Vec::new(),
        1 | 2 => kinds.make(rng, NAMED, &NAMES_OF[..NAMES_OF.len() - 1], &labels),
        _ => kinds.make(rng, NAMED, &NAMES_OF, &labels),
    }
}

/// Two bytes are too few for 40 names of these letters.
pub fn longest(rng: &mut Rng) -> usize {
    rng.pick(&[3, 4, MAX_STEM, MAX_STEM])
}

pub fn marked(mut stem: Vec<u8>, mark: u8) -> Vec<u8> {
    stem.push(mark);
    stem
}

pub fn different(rng: &mut Rng, count: usize, name: impl Fn(&mut Rng) -> Vec<u8>) -> Vec<Vec<u8>> {
    let mut names: Vec<Vec<u8>> = Vec::with_capacity(count);
    while names.len() < count {
        let name = name(rng);
        if !names.contains(&name) {
            names.push(name);
        }
    }
    names
}

/// A stem, mostly from few letters, so that names often begin alike. None begins with `q`.
pub fn name(rng: &mut Rng, longest: usize) -> Vec<u8> {
    let length = match rng.one_in(4) {
        true => longest,
        false => rng.between(1, longest),
    };
    let first = match rng.one_in(8) {
        true => rng.pick(b"defghijklmnoprstuvwxy"),
        false => rng.pick(b"aabcz"),
    };
    let further = |_| match rng.one_in(8) {
        true => rng.pick(b"cdefghijklmnopqrstuvwxy2345678"),
        false => rng.pick(b"aabz019_"),
    };
    std::iter::once(first).chain((1..length).map(further)).collect()
}

/// As many states, labels, transitions and bytes of names as there may be: 20,321 bytes of text.
pub fn longest_table(rng: &mut Rng) -> Table {
    let mut table = table_of_most(rng);
    for name in &mut table.names {
        name.push(rng.pick(&MARKS));
    }
    table
}

/// The same without marks: 20,281 bytes of text.
pub fn table_of_most(rng: &mut Rng) -> Table {
    let kinds = &mut Kinds::default();
    let mut table = with_counts(rng, kinds, MAX_STATES, MAX_LABELS, MAX_TRANSITIONS);
    table.names = (1..=MAX_LABELS).map(longest_stem).collect();
    table
}

/// Of twelve letters, another one for each label.
pub fn longest_stem(label: usize) -> Vec<u8> {
    format!("{:x<1$}{label:02}", "l", MAX_STEM - 2).into_bytes()
}

/// Some bytes changed, mostly into such as no reading leaves.
pub fn damage_prepared(rng: &mut Rng, table: &Table, bytes: &mut [u8]) {
    for _ in 0..rng.between(1, 2) {
        match rng.below(8) {
            0 => bytes[rng.below(NAMES)] = rng.pick(&[0, 1, 2, 4, 5, 39, 40, 41, 255]),
            1 => bytes[rng.below(TABLE_LENGTH)] = rng.below(256) as u8,
            2 => damage_names(rng, table, bytes),
            3 | 4 => damage_transitions(rng, table, bytes),
            5 | 6 if table.labels() > 0 => damage_mark(rng, table, bytes),
            _ => {
                let count = rng.below(NAMES);
                bytes[count] = (bytes[count]).wrapping_add(rng.pick(&[1, 255]));
            }
        }
    }
}

fn damage_names(rng: &mut Rng, table: &Table, bytes: &mut [u8]) {
    // One slot past the used ones is as telling as the used ones.
    let slots = (table.labels() + 1).min(MAX_LABELS);
    let slot = NAMES + rng.below(slots) * NAME_SLOT;
    let other = NAMES + rng.below(slots) * NAME_SLOT;
    match rng.below(3) {
        0 => bytes.copy_within(other..other + NAME_SLOT, slot),
        1 => bytes[slot] = rng.pick(&[0, 1, 2, 11, 12, 13, 14, 15, 16, 255]),
        _ => bytes[slot + rng.below(NAME_SLOT)] = rng.pick(TELLING),
    }
}

/// The name of one label is that of another too; if there are two.
pub fn repeat_name(rng: &mut Rng, table: &Table, bytes: &mut [u8]) -> bool {
    if table.labels() < 2 {
        return false;
    }
    let label = rng.below(table.labels());
    let other = (label + rng.between(1, table.labels() - 1)) % table.labels();
    let [slot, other] = [label, other].map(|label| NAMES + label * NAME_SLOT);
    bytes.copy_within(other..other + NAME_SLOT, slot);
    true
}

/// One more mark behind a name, counted or not; thirteen letters; a mark within.
fn damage_mark(rng: &mut Rng, table: &Table, bytes: &mut [u8]) {
    let label = rng.below(table.labels());
    let length = table.names[label].len();
    let slot = &mut bytes[NAMES + label * NAME_SLOT..][..NAME_SLOT];
    match rng.below(4) {
        0 => {
            slot[0] = length as u8 + 1;
            slot[length + 1] = rng.pick(&MARKS);
        }
        1 => slot[length + 1] = rng.pick(&MARKS),
        2 => {
            slot[0] = MAX_STEM as u8 + 1;
            slot[length..=MAX_STEM + 1].fill(rng.pick(b"az0_"));
        }
        _ => slot[rng.between(1, length)] = rng.pick(&MARKS),
    }
}

fn damage_transitions(rng: &mut Rng, table: &Table, bytes: &mut [u8]) {
    let slots = (table.transitions.len() + 1).min(MAX_TRANSITIONS);
    let slot = TRANSITIONS + rng.below(slots) * TRANSITION_SLOT;
    let other = TRANSITIONS + rng.below(slots) * TRANSITION_SLOT;
    match rng.below(3) {
        0 => bytes.copy_within(other..other + TRANSITION_SLOT, slot),
        1 => (0..TRANSITION_SLOT).for_each(|byte| bytes.swap(slot + byte, other + byte)),
        _ => {
            let limits = [0, table.states, table.labels(), IDLE.into(), 255];
            let byte = (rng.pick(&limits) + rng.below(3)).saturating_sub(1);
            bytes[slot + rng.below(TRANSITION_SLOT)] = byte as u8;
        }
    }
}
