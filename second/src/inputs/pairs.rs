//! Two tables to be combined: by how their names join, at the limits of the result and over them.

use super::alike;
use super::kinds::{self, Kinds, Way, must, way};
use super::rng::Rng;
use super::tables::{
    self, Size, different, longest, name, silent_loop, with_any_exits, with_counts, with_steps,
};
use crate::baseline;
use crate::combining::{Arising, Moving, are_joined, arising};
use crate::prepared::{self, TABLE_LENGTH};
use crate::reply::Reply;
use crate::table::{MAX_LABELS, MAX_STATES, MAX_TRANSITIONS, Step, Table};
use crate::tally::Expected;

pub type Pair = [Table; 2];
type Names = Vec<Vec<u8>>;

const PART: &str = "tables";

const PAIRS: [Way<(), Pair>; 31] = [
    way("any two", 8, &[0, 17], |rng, ()| [(); 2].map(|()| any(rng))),
    way("any table and itself", 4, &[0, 17], |rng, ()| twice(any(rng))),
    way("of the same stems, with any marks", 10, &[0], |rng, ()| {
        small(rng, |rng| [(); 2].map(|()| any_marks(rng)))
    }),
    way("nearly equal names", 8, &[0], |rng, ()| {
        let count = rng.between(1, 12);
        let names = alike::names(rng, count);
        let drawn = [(); 2].map(|()| names.iter().filter(|_| !rng.one_in(3)).cloned().collect());
        drawn.map(|names| over(rng, names))
    }),
    way("sent by the first, received by the second", 4, &[0], |rng, ()| {
        small(rng, |_| [vec!["!"], vec!["?"]])
    }),
    way("received by the first, sent by the second", 4, &[0], |rng, ()| {
        small(rng, |_| [vec!["?"], vec!["!"]])
    }),
    way("both marks in both", 5, &[0], |rng, ()| small(rng, |_| [vec!["!", "?"], vec!["!", "?"]])),
    way("both marks in the first, received by the second", 3, &[0], |rng, ()| {
        small(rng, |_| [vec!["?", "!"], vec!["?"]])
    }),
    way("both marks in the first, sent by the second", 3, &[0], |rng, ()| {
        small(rng, |_| [vec!["?", "!"], vec!["!"]])
    }),
    way("received by the first, both marks in the second", 3, &[0], |rng, ()| {
        small(rng, |_| [vec!["?"], vec!["?", "!"]])
    }),
    way("sent by the first, both marks in the second", 3, &[0], |rng, ()| {
        small(rng, |_| [vec!["!"], vec!["?", "!"]])
    }),
    way("equal names", 5, &[0], |rng, ()| small(rng, |rng| twice(vec![rng.pick(&["", "!", "?"])]))),
    way("equal stems, one of them marked", 3, &[0], |rng, ()| {
        small(rng, |rng| {
            let mark = rng.pick(&["!", "?"]);
            rng.pick(&[[mark, ""], ["", mark]]).map(|end| vec![end])
        })
    }),
    way("a table with three of each stem and itself", 3, &[0], |rng, ()| {
        twice(tables::with_three_of_a_stem(rng))
    }),
    way("joined labels on no transition of one", 4, &[0], |rng, ()| {
        let mut pair = opposed(rng);
        let side = rng.below(2);
        pair[side].transitions.retain(|step| step.label == 0);
        pair
    }),
    way("joined labels on no transition", 2, &[0], |rng, ()| {
        opposed(rng).map(|mut table| {
            table.transitions.retain(|step| step.label == 0);
            table
        })
    }),
    way("silent loops in both", 4, &[0], |rng, ()| {
        small(rng, |rng| [(); 2].map(|()| any_marks(rng))).map(|table| {
            let one_in = rng.between(1, 2);
            let states = (0..table.states as u8).filter(|_| rng.one_in(one_in));
            with_steps(&table, &[], states.map(silent_loop).collect())
        })
    }),
    way("no labels", 2, &[0], |rng, ()| [(); 2].map(|()| over(rng, Vec::new()))),
    way("one state beside any", 3, &[0], |rng, ()| {
        let names = named(rng, |rng| [(); 2].map(|()| any_marks(rng)));
        let mut pair = names.map(|names| over(rng, names));
        pair[0] = with_counts(rng, &mut Kinds::default(), 1, 0, 0);
        if rng.one_in(2) {
            pair.swap(0, 1);
        }
        pair
    }),
    way("256 pairs", 3, &[0], |rng, ()| {
        let states = rng.pick(&[[1, 256], [2, 128], [4, 64], [8, 32], [16, 16]]);
        of_states(rng, states)
    }),
    way("258 to 272 pairs", 3, &[17], |rng, ()| {
        let states = rng.pick(&[[2, 129], [3, 86], [6, 43], [7, 37], [13, 20], [16, 17]]);
        of_states(rng, states)
    }),
    way("far more pairs", 2, &[17], |rng, ()| {
        let more = rng.between(17, MAX_STATES);
        let states = rng.pick(&[[16, 32], [64, 64], [2, 256], [256, 255], [256, 256], [17, more]]);
        of_states(rng, states)
    }),
    way("40 labels", 3, &[0], |rng, ()| of_labels(rng, MAX_LABELS)),
    way("41 labels", 3, &[18], |rng, ()| of_labels(rng, MAX_LABELS + 1)),
    way("far more labels", 2, &[18], |rng, ()| {
        let labels = rng.between(MAX_LABELS + 2, 2 * MAX_LABELS);
        of_labels(rng, labels)
    }),
    way("1,024 transitions", 2, &[0], |rng, ()| of_transitions(rng, 12, MAX_TRANSITIONS)),
    way("1,025 transitions", 2, &[19], |rng, ()| of_transitions(rng, 12, MAX_TRANSITIONS + 1)),
    way("far more transitions", 1, &[19], |rng, ()| {
        let pair = of_labels(rng, 6);
        pair.map(|Table { names, .. }| dense(rng, names))
    }),
    way("256 pairs, 40 labels, 1,024 transitions", 2, &[0], |rng, ()| of_most(rng)),
    way("over 256 pairs and 40 labels", 1, &[17], |rng, ()| {
        let labels = rng.between(MAX_LABELS + 1, 2 * MAX_LABELS);
        of_labels(rng, labels).map(|table| Table { states: rng.between(17, MAX_STATES), ..table })
    }),
    way("over 40 labels and 1,024 transitions", 1, &[18], |rng, ()| {
        let pair = of_labels(rng, MAX_LABELS + 1);
        pair.map(|Table { names, .. }| dense(rng, names))
    }),
];

fn twice<Item: Clone>(item: Item) -> [Item; 2] {
    [item.clone(), item]
}

/// One in ten is too large for most others.
fn any(rng: &mut Rng) -> Table {
    let size = if rng.one_in(10) { Size::Medium } else { Size::Small };
    let kinds = &mut Kinds::default();
    let table = tables::table(rng, kinds, size);
    tables::with_any_names(rng, kinds, table)
}

/// A small table of these names, with exits of some states or of all.
fn over(rng: &mut Rng, names: Names) -> Table {
    let kinds = &mut Kinds::default();
    let (states, steps) = (rng.between(1, 5), rng.below(15));
    let drawn = with_counts(rng, kinds, states, names.len(), steps);
    with_any_exits(rng, kinds, &Table { names, ..drawn })
}

/// What stands behind a stem, in each table.
type Marks = [Vec<&'static str>; 2];

fn any_marks(rng: &mut Rng) -> Vec<&'static str> {
    ["", "?", "!"].into_iter().filter(|_| rng.one_in(2)).collect()
}

/// The names of both tables, of a few stems.
fn named(rng: &mut Rng, marks: fn(&mut Rng) -> Marks) -> [Names; 2] {
    let (count, longest) = (rng.between(1, 4), longest(rng));
    let stems = different(rng, count, |rng| name(rng, longest));
    of_stems(&stems, || marks(rng)).map(|mut names| {
        rng.shuffle(&mut names);
        names
    })
}

fn of_stems(stems: &Names, mut marks: impl FnMut() -> Marks) -> [Names; 2] {
    let mut names = [Names::new(), Names::new()];
    for stem in stems {
        for (names, marks) in names.iter_mut().zip(marks()) {
            names.extend(marks.iter().map(|mark| [stem, mark.as_bytes()].concat()));
        }
    }
    names
}

fn small(rng: &mut Rng, marks: fn(&mut Rng) -> Marks) -> Pair {
    named(rng, marks).map(|names| over(rng, names))
}

/// All labels are joined, any way round.
fn opposed(rng: &mut Rng) -> Pair {
    small(rng, |rng| rng.pick(&[["!", "?"], ["?", "!"]]).map(|mark| vec![mark]))
}

/// Of so many states, with few steps.
fn of_states(rng: &mut Rng, mut states: [usize; 2]) -> Pair {
    if rng.one_in(2) {
        states.swap(0, 1);
    }
    let names = named(rng, |rng| [(); 2].map(|()| any_marks(rng)));
    let pairs = states[0] * states[1];
    let [first, second] = [0, 1].map(|side: usize| {
        // As many as the result has room for.
        let most = MAX_TRANSITIONS / 2 * states[side] / pairs;
        let steps = rng.below(most + 1);
        let drawn = with_counts(rng, &mut Kinds::default(), states[side], names[side].len(), steps);
        Table { start: rng.pick(&[0, drawn.start, states[side] as u8 - 1]), ..drawn }
    });
    let [of_first, of_second] = names;
    [Table { names: of_first, ..first }, Table { names: of_second, ..second }]
}

/// Names of two tables whose result has so many labels: of one table, equal, joined either way, or of
/// all four labels of a stem.
fn names_of(rng: &mut Rng, labels: usize) -> [Names; 2] {
    const KINDS: [[&[&str]; 2]; 6] = [
        [&[""], &[]],
        [&[], &["?"]],
        [&["!"], &["!"]],
        [&["!"], &["?"]],
        [&["?"], &["!"]],
        [&["!", "?"], &["?", "!"]],
    ];
    // Only names of one table alone make so many.
    let kinds = if labels > MAX_LABELS + 1 { &KINDS[..2] } else { &KINDS };
    loop {
        let longest = longest(rng);
        let stems = different(rng, labels, |rng| name(rng, longest));
        let names = of_stems(&stems, || rng.pick(kinds).map(Vec::from));
        if names.iter().all(|names| names.len() <= MAX_LABELS) {
            return names;
        }
    }
}

fn of_labels(rng: &mut Rng, labels: usize) -> Pair {
    names_of(rng, labels).map(|mut names| {
        rng.shuffle(&mut names);
        over(rng, names)
    })
}

/// With many steps for its states.
fn dense(rng: &mut Rng, names: Names) -> Table {
    let (states, steps) = (rng.between(8, 16), rng.between(300, MAX_TRANSITIONS));
    let drawn = with_counts(rng, &mut Kinds::default(), states, names.len(), steps);
    Table { names, ..drawn }
}

/// Its result has so many labels and transitions.
fn of_transitions(rng: &mut Rng, labels: usize, transitions: usize) -> Pair {
    const STATES: [[usize; 2]; 8] =
        [[16, 16], [32, 8], [8, 32], [64, 4], [17, 15], [15, 17], [12, 12], [30, 5]];
    let states = rng.pick(&STATES);
    exactly(rng, states, labels, transitions)
}

/// The most of all; its names have up to 13 bytes.
pub fn of_most(rng: &mut Rng) -> Pair {
    let states = rng.pick(&[[16, 16], [16, 16], [32, 8], [8, 32]]);
    exactly(rng, states, MAX_LABELS, MAX_TRANSITIONS)
}

/// Of these states; the result has so many labels and transitions.
fn exactly(rng: &mut Rng, states: [usize; 2], labels: usize, transitions: usize) -> Pair {
    let names = loop {
        // No other name begins with `q`.
        let [mut first, mut second] = names_of(rng, labels - 1);
        let [sent, received] = rng.pick(&[[b"q!", b"q?"], [b"q?", b"q!"]]);
        first.push(sent.into());
        second.push(received.into());
        if first.len().max(second.len()) <= MAX_LABELS {
            break [first, second];
        }
    };
    // A step that moves alone arises once for each state of the other table; fewer do if many are joined.
    let mut arise = transitions;
    loop {
        let of_first = rng.below(arise / states[1] + 1);
        let steps = [of_first, (arise - of_first * states[1]) / states[0]];
        let [first, second] = [0, 1].map(|side: usize| {
            let names = names[side].clone();
            let others = names.len() - 1;
            let drawn = with_counts(rng, &mut Kinds::default(), states[side], others, steps[side]);
            Table { names, ..drawn }
        });
        match filled(rng, first, second, transitions) {
            Ok(pair) => return pair,
            Err(Missed::Under) => arise += arise / 4 + 1,
            Err(Missed::Over) => arise -= arise / 5,
        }
    }
}

enum Missed {
    Under,
    Over,
}

/// The last label of the second table stands on one step, so that each step by that of the first, which
/// is joined with it, makes one more.
fn filled(
    rng: &mut Rng,
    mut first: Table,
    mut second: Table,
    transitions: usize,
) -> Result<Pair, Missed> {
    let [from, to] = [(); 2].map(|()| rng.below(second.states) as u8);
    second.transitions.push(Step { from, label: second.labels() as u8, to });
    second.transitions.sort_unstable();
    let lacking = transitions.checked_sub(count(&first, &second)).ok_or(Missed::Over)?;
    let states = first.states;
    if lacking > states * states || first.transitions.len() + lacking > MAX_TRANSITIONS {
        return Err(Missed::Under);
    }
    let mut ends: Vec<usize> = (0..states * states).collect();
    rng.shuffle(&mut ends);
    let label = first.labels() as u8;
    let step =
        |ends: &usize| Step { from: (ends / states) as u8, label, to: (ends % states) as u8 };
    first.transitions.extend(ends[..lacking].iter().map(step));
    first.transitions.sort_unstable();
    Ok([first, second])
}

fn reply(first: &Table, second: &Table) -> (Reply, [u8; TABLE_LENGTH]) {
    let mut combined = [0; TABLE_LENGTH];
    let [first, second] = [first, second].map(prepared::table_bytes);
    (baseline::combine(&first, &second, &mut combined), combined)
}

/// Of the result's transitions, if nothing else is too much.
fn count(first: &Table, second: &Table) -> usize {
    match reply(first, second) {
        (Reply { number: 19, figure }, _) => figure as usize,
        (_, combined) => u16::from_le_bytes([combined[3], combined[4]]).into(),
    }
}

/// What is so of two tables and all that arises from them, sorted.
struct Sign {
    name: &'static str,
    is_so: fn(&Pair, &[Arising]) -> bool,
}

const SIGN: &str = "arises";

const fn sign(name: &'static str, is_so: fn(&Pair, &[Arising]) -> bool) -> Sign {
    Sign { name, is_so }
}

const SIGNS: [Sign; 8] = [
    sign("twice, from silent loops of both", |_, steps| {
        has_twice(steps, |one, other| one.name.is_empty() && one.moving != other.moving)
    }),
    sign("twice, from loops by equal names", |_, steps| {
        has_twice(steps, |one, other| {
            let moving = [one.moving, other.moving];
            !one.name.is_empty() && moving == [Moving::First, Moving::Second]
        })
    }),
    sign("twice, from both joints of a stem", |_, steps| {
        has_twice(steps, |one, other| [one.moving, other.moving] == [Moving::Both; 2])
    }),
    sign("twice, lone in the first and joint", |_, steps| {
        has_twice(steps, |one, other| [one.moving, other.moving] == [Moving::First, Moving::Both])
    }),
    sign("twice, lone in the second and joint", |_, steps| {
        has_twice(steps, |one, other| [one.moving, other.moving] == [Moving::Second, Moving::Both])
    }),
    sign("nothing at a pair whose states have steps", |[first, second], steps| {
        let pairs = 0..first.states * second.states;
        let is_left = |table: &Table, state| {
            table.transitions.iter().any(|step| usize::from(step.from) == state)
        };
        pairs.into_iter().any(|pair| {
            let (i, j) = (pair / second.states, pair % second.states);
            let blocked = is_left(first, i) || is_left(second, j);
            blocked && steps.binary_search_by_key(&pair, |step| step.from).is_err()
        })
    }),
    sign("nothing by joined labels", |[first, second], steps| {
        let joined = |name| second.names.iter().any(|other| are_joined(name, other));
        let some = first.names.iter().any(|name| joined(name));
        some && steps.iter().all(|step| step.moving != Moving::Both)
    }),
    sign("something at the start, from both starts above 0", |[first, second], steps| {
        let start = usize::from(first.start) * second.states + usize::from(second.start);
        let are_above = first.start > 0 && second.start > 0;
        are_above && steps.iter().any(|step| step.from == start)
    }),
];

/// Whether some step arises in two ways that are so.
fn has_twice(steps: &[Arising], are_so: fn(&Arising, &Arising) -> bool) -> bool {
    let key = |step: &Arising| (step.from, step.to, step.name.len());
    steps.chunk_by(|one, other| key(one) == key(other) && one.name == other.name).any(|alike| {
        (1..alike.len()).any(|at| alike[..at].iter().any(|one| are_so(one, &alike[at])))
    })
}

pub fn pair(rng: &mut Rng, kinds: &mut Kinds) -> Pair {
    let pair = kinds.make(rng, PART, &PAIRS, &());
    let [first, second] = &pair;
    if reply(first, second).0.number == 0 {
        let steps = arising(first, second);
        for sign in SIGNS.iter().filter(|sign| (sign.is_so)(&pair, &steps)) {
            kinds.note(SIGN, sign.name);
        }
    }
    pair
}

/// All that `pair` must have made.
pub fn expected() -> Vec<Expected> {
    let signs = SIGNS.iter().map(|sign| must(SIGN, sign.name, &[0]));
    kinds::expected(PART, &PAIRS).into_iter().chain(signs).collect()
}

#[cfg(test)]
mod tests {
    use super::*;
    use crate::combining::combined;
    use crate::reply::Refusal;

    #[test]
    fn the_most_of_all_has_256_pairs_40_labels_and_1_024_transitions() {
        let rng = &mut Rng::new(1);
        for _ in 0..40 {
            let [first, second] = of_most(rng);
            let table = combined(&first, &second).expect("at the limits");
            let counts = (table.states, table.labels(), table.transitions.len());
            assert_eq!(counts, (MAX_STATES, MAX_LABELS, MAX_TRANSITIONS));
        }
    }

    #[test]
    fn one_more_label_or_transition_is_just_refused() {
        let rng = &mut Rng::new(2);
        for _ in 0..40 {
            let [first, second] = of_labels(rng, 41);
            assert_eq!(combined(&first, &second), Err(Refusal::LabelCount(41)));
            let [first, second] = of_transitions(rng, 12, 1_025);
            assert_eq!(combined(&first, &second), Err(Refusal::TransitionCount(1_025)));
        }
    }
}
