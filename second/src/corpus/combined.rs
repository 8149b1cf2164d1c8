//! The corpus `combined`, whose answers `corpus/combined.txt` holds: two tables combined, by how their
//! names join, at the limits of the result and over them, and what is refused before that; tables written
//! as text. Like the corpus `base`, whose random numbers and tables it uses, it is left alone.

use std::collections::BTreeSet;

use super::questions::damaged_table;
use super::rng::Rng;
use super::tables::Exits::{All, Any, Lacking};
use super::tables::{TABLE_LENGTH, Table, names};
use super::{Input, Kind, Lent, damage, kind};

/// So many bytes are lent for a table's text.
const TEXT: usize = 20_321;

pub const KINDS: [Kind; 66] = [
    kind("combine", "any-two", 800, |rng| ask(rng, [(); 2].map(|()| Table::small(rng, Any)))),
    kind("combine", "any-and-itself", 400, |rng| ask(rng, itself(Table::small(rng, Any)))),
    kind("combine", "any-marks", 1_000, |rng| ask(rng, marked(rng, |rng| [ends(rng), ends(rng)]))),
    kind("combine", "any-marks-and-itself", 400, |rng| {
        let [table, _] = marked(rng, |rng| [ends(rng), ends(rng)]);
        ask(rng, itself(table))
    }),
    kind("combine", "sent-by-the-first", 500, |rng| ask(rng, marked(rng, |_| [&["!"], &["?"]]))),
    kind("combine", "sent-by-the-second", 500, |rng| ask(rng, marked(rng, |_| [&["?"], &["!"]]))),
    kind("combine", "both-marks-in-both", 500, |rng| ask(rng, marked(rng, |_| [BOTH, BOTH]))),
    kind("combine", "both-in-first-received", 300, |rng| ask(rng, marked(rng, |_| [BOTH, &["?"]]))),
    kind("combine", "both-in-first-sent", 300, |rng| ask(rng, marked(rng, |_| [BOTH, &["!"]]))),
    kind("combine", "received-both-in-second", 300, |rng| {
        ask(rng, marked(rng, |_| [&["?"], BOTH]))
    }),
    kind("combine", "sent-both-in-second", 300, |rng| ask(rng, marked(rng, |_| [&["!"], BOTH]))),
    kind("combine", "equal-names", 400, |rng| {
        ask(rng, marked(rng, |rng| rng.pick(&[[&[""], &[""]], [&["!"], &["!"]], [&["?"], &["?"]]])))
    }),
    kind("combine", "stem-and-marked", 300, |rng| {
        ask(rng, marked(rng, |rng| rng.pick(&[[&[""], &["!"]], [&["?"], &[""]]])))
    }),
    kind("combine", "names-begin-alike", 400, |rng| ask(rng, beginning_alike(rng))),
    kind("combine", "partner-never-moves", 300, |rng| {
        let mut pair = joined(rng);
        pair[rng.below(2)].steps.retain(|step| step[1] == 0);
        ask(rng, pair)
    }),
    kind("combine", "joined-on-no-transition", 300, |rng| {
        let mut pair = joined(rng);
        pair.iter_mut().for_each(|table| table.steps.retain(|step| step[1] == 0));
        ask(rng, pair)
    }),
    kind("combine", "silent-loops", 300, |rng| {
        ask(rng, [(); 2].map(|()| Table::silent_loops(rng)))
    }),
    kind("combine", "no-exits", 200, |rng| {
        ask(rng, [Table::small(rng, Lacking), Table::small(rng, Lacking)])
    }),
    kind("combine", "no-labels", 200, |rng| {
        ask(rng, [(); 2].map(|()| Table::without_labels(rng, Any)))
    }),
    kind("combine", "one-state", 200, |rng| {
        let mut pair = [Table::drawn(rng, Any, 1, rng.below(4), 3), Table::small(rng, Any)];
        if rng.one_in(2) {
            pair.swap(0, 1);
        }
        ask(rng, pair)
    }),
    kind("combine", "256-pairs", 150, |rng| {
        let states = rng.pick(&[[1, 256], [256, 1], [2, 128], [64, 4], [8, 32], [16, 16]]);
        ask(rng, of_states(rng, states))
    }),
    kind("combine", "bad-258-pairs", 100, |rng| {
        let states = rng.pick(&[[2, 129], [129, 2], [3, 86], [6, 43]]);
        ask(rng, of_states(rng, states))
    }),
    kind("combine", "bad-pairs", 100, |rng| {
        let states = rng.pick(&[[16, 17], [20, 13], [16, 32], [2, 256], [255, 256], [256, 256]]);
        ask(rng, of_states(rng, states))
    }),
    kind("combine", "40-labels", 150, |rng| ask(rng, of_labels(rng, 40))),
    kind("combine", "bad-41-labels", 150, |rng| ask(rng, of_labels(rng, 41))),
    kind("combine", "bad-labels", 100, |rng| ask(rng, of_labels(rng, rng.between(42, 60)))),
    kind("combine", "1024-transitions", 60, |rng| ask(rng, of_transitions(rng, 6, 1_024))),
    kind("combine", "bad-1025-transitions", 60, |rng| ask(rng, of_transitions(rng, 6, 1_025))),
    kind("combine", "bad-transitions", 40, |rng| {
        ask(rng, marked(rng, |rng| [ends(rng), BOTH]).map(|table| dense(rng, table)))
    }),
    kind("combine", "largest", 40, |rng| ask(rng, of_transitions(rng, 40, 1_024))),
    kind("combine", "bad-pairs-and-labels", 60, |rng| {
        let states = || rng.between(17, 256);
        ask(rng, of_labels(rng, 41).map(|table| Table { states: states(), ..table }))
    }),
    kind("combine", "bad-labels-and-transitions", 40, |rng| {
        ask(rng, of_labels(rng, 41).map(|table| dense(rng, table)))
    }),
    kind("combine", "first-longer", 200, |rng| lend(rng, joined(rng), [longer, same, same])),
    kind("combine", "second-longer", 200, |rng| lend(rng, joined(rng), [same, longer, same])),
    kind("combine", "combined-longer", 300, |rng| lend(rng, joined(rng), [same, same, longer])),
    kind("combine", "first-short", 200, |rng| lend(rng, joined(rng), [shorter, same, same])),
    kind("combine", "second-short", 200, |rng| lend(rng, joined(rng), [same, shorter, same])),
    kind("combine", "combined-short", 200, |rng| lend(rng, joined(rng), [same, same, shorter])),
    kind("combine", "all-short", 100, |rng| lend(rng, joined(rng), [shorter; 3])),
    kind("combine", "first-damaged", 400, |rng| foreign(rng, [damaged_table, whole], same)),
    kind("combine", "second-damaged", 400, |rng| foreign(rng, [whole, damaged_table], same)),
    kind("combine", "both-damaged", 200, |rng| foreign(rng, [damaged_table; 2], same)),
    kind("combine", "first-random", 50, |rng| foreign(rng, [random, whole], same)),
    kind("combine", "second-random", 50, |rng| foreign(rng, [whole, random], same)),
    kind("combine", "first-random-combined-short", 100, |rng| {
        foreign(rng, [random, whole], shorter)
    }),
    kind("combine", "second-random-combined-short", 100, |rng| {
        foreign(rng, [whole, random], shorter)
    }),
    kind("combine", "first-random-second-short", 100, |rng| {
        foreign(rng, [random, |rng, table| resized(rng, table.bytes(), shorter)], same)
    }),
    kind("combine", "first-random-bad-pairs", 50, |rng| {
        let [first, second] = of_states(rng, [16, 32]);
        let first = random(rng, &first);
        combine(rng, [first, second.bytes()], TABLE_LENGTH)
    }),
    kind("combine", "second-random-bad-pairs", 50, |rng| {
        let [first, second] = of_states(rng, [64, 5]);
        let second = random(rng, &second);
        combine(rng, [first.bytes(), second], TABLE_LENGTH)
    }),
    kind("table_text", "m", 50, |rng| write(rng, &Table::m(rng, Any))),
    kind("table_text", "small", 800, |rng| write(rng, &Table::small(rng, Any))),
    kind("table_text", "medium", 300, |rng| write(rng, &Table::medium(rng, All))),
    kind("table_text", "largest", 60, |rng| write(rng, &Table::largest(rng, Any))),
    kind("table_text", "longest", 60, |rng| write(rng, &longest(rng))),
    kind("table_text", "ring", 60, |rng| write(rng, &Table::ring(rng, 256, rng.below(20)))),
    kind("table_text", "no-labels", 100, |rng| write(rng, &Table::without_labels(rng, Any))),
    kind("table_text", "no-transitions", 100, |rng| {
        write(rng, &Table::drawn(rng, Any, rng.between(1, 256), rng.below(41), 0))
    }),
    kind("table_text", "any-marks", 300, |rng| {
        let [table, _] = marked(rng, |rng| [ends(rng), ends(rng)]);
        write(rng, &table)
    }),
    kind("table_text", "text-longer", 200, |rng| {
        text(rng, Table::small(rng, Any).bytes(), damage::longer(rng, TEXT))
    }),
    kind("table_text", "text-short", 200, |rng| {
        text(rng, Table::small(rng, Any).bytes(), damage::shorter(rng, TEXT))
    }),
    kind("table_text", "text-as-long-as-written", 100, |rng| {
        let table = Table::small(rng, Any);
        text(rng, table.bytes(), table.text().len())
    }),
    kind("table_text", "table-longer", 200, |rng| {
        let table = resized(rng, Table::small(rng, Any).bytes(), longer);
        text(rng, table, TEXT)
    }),
    kind("table_text", "table-short", 200, |rng| {
        let table = resized(rng, Table::small(rng, Any).bytes(), shorter);
        text(rng, table, rng.pick(&[TEXT, TEXT - 1, 0]))
    }),
    kind("table_text", "table-damaged", 400, |rng| {
        text(rng, damaged_table(rng, &Table::small(rng, Any)), TEXT)
    }),
    kind("table_text", "table-random", 50, |rng| {
        text(rng, random(rng, &Table::small(rng, Any)), TEXT)
    }),
    kind("table_text", "table-random-text-short", 100, |rng| {
        text(rng, random(rng, &Table::small(rng, Any)), damage::shorter(rng, TEXT))
    }),
];

pub fn kinds() -> impl Iterator<Item = Kind> {
    KINDS.into_iter()
}

fn combine(rng: &Rng, [first, second]: [Vec<u8>; 2], length: usize) -> Input {
    Input::Combine { first, second, combined: Lent::drawn(rng, length) }
}

fn ask(rng: &Rng, pair: [Table; 2]) -> Input {
    combine(rng, pair.map(|table| table.bytes()), TABLE_LENGTH)
}

fn text(rng: &Rng, table: Vec<u8>, length: usize) -> Input {
    Input::TableText { table, text: Lent::drawn(rng, length) }
}

fn write(rng: &Rng, table: &Table) -> Input {
    text(rng, table.bytes(), TEXT)
}

/// How many bytes are lent where so many are needed.
type Length = fn(&Rng, usize) -> usize;

fn same(_: &Rng, length: usize) -> usize {
    length
}

fn shorter(rng: &Rng, length: usize) -> usize {
    damage::shorter(rng, length)
}

fn longer(rng: &Rng, length: usize) -> usize {
    damage::longer(rng, length)
}

fn resized(rng: &Rng, bytes: Vec<u8>, length: Length) -> Vec<u8> {
    damage::resized(rng, bytes, length(rng, TABLE_LENGTH))
}

fn lend(rng: &Rng, [first, second]: [Table; 2], lengths: [Length; 3]) -> Input {
    let tables =
        [resized(rng, first.bytes(), lengths[0]), resized(rng, second.bytes(), lengths[1])];
    combine(rng, tables, lengths[2](rng, TABLE_LENGTH))
}

/// What is lent for a table.
type Bytes = fn(&Rng, &Table) -> Vec<u8>;

fn whole(_: &Rng, table: &Table) -> Vec<u8> {
    table.bytes()
}

fn random(rng: &Rng, _: &Table) -> Vec<u8> {
    damage::bytes(rng, TABLE_LENGTH, damage::any_byte)
}

fn foreign(rng: &Rng, bytes: [Bytes; 2], length: Length) -> Input {
    let [first, second] = joined(rng);
    let tables = [bytes[0](rng, &first), bytes[1](rng, &second)];
    combine(rng, tables, length(rng, TABLE_LENGTH))
}

fn itself(table: Table) -> [Table; 2] {
    let other = Table { names: table.names.clone(), steps: table.steps.clone(), ..table };
    [table, other]
}

/// What stands behind a stem in one table.
type Ends = &'static [&'static str];

const BOTH: Ends = &["!", "?"];

fn ends(rng: &Rng) -> Ends {
    rng.pick(&[&[], &[""], &["!"], &["?"], &["?", ""], &["", "!"], &["!", "?"], &["?", "", "!"]])
}

/// Of one to three stems.
fn marked(rng: &Rng, ends: fn(&Rng) -> [Ends; 2]) -> [Table; 2] {
    let stems = names(rng, rng.between(1, 3), 3 + 9 * rng.below(2));
    let mut pair = [Vec::new(), Vec::new()];
    for stem in &stems {
        for (names, ends) in pair.iter_mut().zip(ends(rng)) {
            names.extend(ends.iter().map(|end| [stem, end.as_bytes()].concat()));
        }
    }
    pair.map(|names| over(rng, rng.between(1, 5), names, rng.below(16)))
}

/// Any names behind each other, in a table of so many steps, if it has room.
fn over(rng: &Rng, states: usize, mut names: Vec<Vec<u8>>, steps: usize) -> Table {
    for last in (1..names.len()).rev() {
        names.swap(last, rng.below(last + 1));
    }
    let steps = drawn(rng, states, 0..names.len() + 1, steps);
    Table { states, start: rng.below(states), names, steps }
}

fn drawn(
    rng: &Rng,
    states: usize,
    labels: std::ops::Range<usize>,
    steps: usize,
) -> BTreeSet<[u8; 3]> {
    let possible = states * states * labels.len();
    let mut drawn = BTreeSet::new();
    while drawn.len() < steps.min(possible - possible / 4) {
        let label = rng.between(labels.start, labels.end - 1);
        drawn.insert([rng.below(states), label, rng.below(states)].map(|number| number as u8));
    }
    drawn
}

fn joined(rng: &Rng) -> [Table; 2] {
    marked(rng, |rng| rng.pick(&[[&["!"], &["?"]], [&["?"], &["!"]]]))
}

fn beginning_alike(rng: &Rng) -> [Table; 2] {
    const ALIKE: [&str; 12] = [
        "clamp", "clamp!", "clamp1", "clamp?", "clamp_", "clampa", "clam", "clam!", "clamp1?",
        "clamp1!", "clampa!", "clampz",
    ];
    [(); 2].map(|()| {
        let names = ALIKE.iter().filter(|_| rng.one_in(2)).map(|name| name.as_bytes().to_vec());
        over(rng, rng.between(1, 4), names.collect(), rng.below(12))
    })
}

/// With few steps.
fn of_states(rng: &Rng, states: [usize; 2]) -> [Table; 2] {
    let [first, second] = marked(rng, |rng| [ends(rng), ends(rng)]);
    let most = states.map(|count| 400 * count / (states[0] * states[1]));
    [(first, states[0], most[0]), (second, states[1], most[1])]
        .map(|(table, states, most)| over(rng, states, table.names, rng.below(most + 1)))
}

/// The result has so many labels: of one table, equal or joined.
fn of_labels(rng: &Rng, labels: usize) -> [Table; 2] {
    const ENDS: [[Ends; 2]; 5] =
        [[&[""], &[]], [&[], &["?"]], [&["?"], &["?"]], [&["!"], &["?"]], [&["?"], &["!"]]];
    loop {
        let mut pair = [Vec::new(), Vec::new()];
        for stem in names(rng, labels, 12) {
            let few = if labels > 41 { 2 } else { 5 };
            for (names, ends) in pair.iter_mut().zip(rng.pick(&ENDS[..few])) {
                names.extend(ends.iter().map(|end| [&stem, end.as_bytes()].concat()));
            }
        }
        if pair.iter().all(|names| names.len() <= 40) {
            return pair.map(|names| over(rng, rng.between(1, 4), names, rng.below(12)));
        }
    }
}

/// With many steps for its states.
fn dense(rng: &Rng, table: Table) -> Table {
    over(rng, rng.between(8, 16), table.names, rng.between(300, 1_024))
}

/// 256 pairs and so many labels and transitions: 56 steps that arise 16 times each, and such as arise
/// once, by the only label that is joined.
fn of_transitions(rng: &Rng, labels: usize, transitions: usize) -> [Table; 2] {
    let mut stems = names(rng, labels - 1, 12);
    let mut of_second = stems.split_off(rng.between(1, labels - 2));
    let mut of_first = stems;
    let [sent, received] = rng.pick(&[["q!", "q?"], ["q?", "q!"]]);
    of_first.push(sent.into());
    of_second.push(received.into());
    let [first, second] = [of_first.len(), of_second.len()];
    let alone = rng.between(10, 46);
    let mut steps = drawn(rng, 16, 0..first, alone);
    steps.extend(drawn(rng, 16, first..first + 1, transitions - 56 * 16));
    let mut others = drawn(rng, 16, 1..second, 56 - alone);
    others.extend(drawn(rng, 16, second..second + 1, 1));
    [
        Table { states: 16, start: rng.below(16), names: of_first, steps },
        Table { states: 16, start: rng.below(16), names: of_second, steps: others },
    ]
}

/// 20,321 bytes.
fn longest(rng: &Rng) -> Table {
    let mut table = Table::largest(rng, Any);
    let name = |label: usize| format!("l{label:0>11}{}", rng.pick(&["?", "!"])).into_bytes();
    table.names = (1..=40).map(name).collect();
    table.steps = drawn(rng, 256, 0..41, 1_024);
    table
}
