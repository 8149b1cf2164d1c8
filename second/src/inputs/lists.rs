//! Random lists of states: rising ones and such as are refused, in columns, as the program
//! `print_verdicts` reads them, and as they may be typed.

use super::edits;
use super::folders::{self, Files, files_of};
use super::kinds::{Kinds, Way, pick, way};
use super::questions::largest;
use super::rng::Rng;
use crate::columns::{self, COLUMNS};
use crate::table::{MAX_STATES, Table};

/// Lists for a table of so many states.
pub const LISTS: [Way<usize, Vec<usize>>; 11] = [
    way("no state", 3, &[0, 16], |_, _| Vec::new()),
    way("one state", 3, &[0, 16], |rng, &states| vec![rng.below(states)]),
    way("some states", 14, &[0, 16], |rng, &states| some(rng, states)),
    way("all states", 12, &[0, 16], |_, &states| (0..states).collect()),
    way("a state that the table lacks", 3, &[16], |rng, &states| {
        let lacking = [states, states + 1, 255, 256, 300, 65_536, 999_999];
        let lacking = lacking.into_iter().filter(|&state| state >= states);
        let lacking = rng.pick(&lacking.collect::<Vec<usize>>());
        with_one_more(rng, states, |_, _| lacking)
    }),
    way("a state above 255 with the low bits of one", 3, &[16], |rng, &states| {
        let mut list = some(rng, states);
        let at = rng.below(list.len());
        list[at] += rng.pick(&[256, 512, 32_768, 65_536, 131_072, 524_288]);
        list
    }),
    way("a state twice", 2, &[16], |rng, &states| with_one_more(rng, states, |_, before| before)),
    way("a state not above", 2, &[16], |rng, &states| {
        with_one_more(rng, states, |rng, before| rng.below(before + 1))
    }),
    way("256 states", 3, &[0, 16], |_, _| (0..MAX_STATES).collect()),
    way("257 states", 2, &[16], |rng, _| {
        let last = rng.pick(&[0, 255, 256, 300]);
        (0..MAX_STATES).chain([last]).collect()
    }),
    way("300 states", 1, &[16], |rng, _| {
        let states = rng.pick(&[MAX_STATES, 300]);
        (0..300).map(|state| state % states).collect()
    }),
];

/// At least one, rising.
fn some(rng: &mut Rng, states: usize) -> Vec<usize> {
    let (one_in, always) = (rng.between(1, 5), rng.below(states));
    (0..states).filter(|&state| state == always || rng.one_in(one_in)).collect()
}

/// Some, and one more behind one of them, made of that.
fn with_one_more(
    rng: &mut Rng,
    states: usize,
    more: impl Fn(&mut Rng, usize) -> usize,
) -> Vec<usize> {
    let mut list = some(rng, states);
    let at = rng.below(list.len());
    let more = more(rng, list[at]);
    list.insert(at + 1, more);
    list
}

fn in_columns(list: &[usize]) -> Vec<u8> {
    let mut text = Vec::new();
    list.iter().for_each(|&state| columns::write(state as u64, &mut text));
    text
}

/// What stands in a list's place: the list in columns, or bytes that hold something else.
pub const READ: [Way<Vec<u8>, Vec<u8>>; 9] = [
    way("in columns", 24, &[0, 16], |_, list| list.clone()),
    way("a rest of fewer than six bytes", 3, &[16], |rng, list| {
        let rest: &[u8] = rng.pick(&[b" ", b"0", b"  255", b"255", b"     ", b"\0", b"\n\n"]);
        [list, rest].concat()
    }),
    way("LF at the end", 2, &[16], |_, list| [list.as_slice(), b"\n"].concat()),
    way("cut", 1, &[16], |rng, list| edited(rng, list, edits::cut)),
    way("an entry of other bytes", 4, &[16], |rng, list| {
        let entry = rng.pick(&NO_ENTRIES);
        let at = COLUMNS * rng.between(0, list.len() / COLUMNS);
        [&list[..at], entry, &list[at..]].concat()
    }),
    way("leading zeros", 3, &[16], |rng, list| {
        let mut list = not_empty(list);
        let at = COLUMNS * rng.below(list.len() / COLUMNS);
        let entry = &mut list[at..at + COLUMNS];
        let blanks = entry.iter().filter(|&&byte| byte == b' ').count();
        let zeros = rng.between(1, blanks.max(1));
        entry[blanks.saturating_sub(zeros)..blanks].fill(b'0');
        list
    }),
    way("byte changed", 1, &[16], |rng, list| edited(rng, list, edits::change)),
    way("byte inserted", 1, &[16], |rng, list| edited(rng, list, edits::insert)),
    way("byte removed", 1, &[16], |rng, list| edited(rng, list, edits::remove)),
];

/// Six bytes that hold no number in columns.
const NO_ENTRIES: [&[u8]; 14] = [
    b"      ",
    b"     a",
    b"abcdef",
    b"    -1",
    b"    +1",
    b"   0x1",
    b"\t    0",
    b"    0\n",
    b"0     ",
    b"    0 ",
    b"   0 1",
    b"    00",
    b"000000",
    b"\0\0\0\0\0\0",
];

fn edited(rng: &mut Rng, list: &[u8], edit: edits::Edit) -> Vec<u8> {
    let mut text = not_empty(list);
    edit(rng, &mut text);
    text
}

fn not_empty(list: &[u8]) -> Vec<u8> {
    if list.is_empty() { in_columns(&[0]) } else { list.to_vec() }
}

pub const LIST: &str = "list";
pub const INPUT: &str = "input";
pub const MOST_STATES: &str = "256 states";

/// The same folder for the same seed and index, with its kind: one in ten has the most states, the
/// others are those of `explain`.
pub fn folder(seed: u64, index: u64) -> (&'static str, Files) {
    if index % 10 != 4 {
        let (way, files) = folders::folder(seed, index);
        return (way.name, files);
    }
    let rng = &mut Rng::of_input(seed, "most states", index);
    let question = largest(rng, &mut Kinds::default());
    (MOST_STATES, files_of(rng, &question))
}

/// The bytes that the program reads for a list, over this table, and their kinds.
pub fn input(seed: u64, index: u64, table: &[u8]) -> (Kinds, Vec<u8>) {
    let rng = &mut Rng::of_input(seed, "list", index);
    let mut kinds = Kinds::default();
    let states = states(rng, table);
    let list = kinds.make(rng, LIST, &LISTS, &states);
    let input = kinds.make(rng, INPUT, &READ, &in_columns(&list));
    (kinds, input)
}

/// A list over this table as it is typed, with its kind.
pub fn typed(seed: u64, index: u64, table: &[u8]) -> (&'static str, String) {
    let rng = &mut Rng::of_input(seed, "typed list", index);
    let states = states(rng, table);
    let way = pick(rng, &LISTS);
    let list = (way.make)(rng, &states);
    let widest = rng.pick(&[1, 1, 6]);
    let numbers = list.iter().map(|state| {
        let width = rng.between(1, widest);
        blanks(rng, 1) + &format!("{state:0width$}")
    });
    let numbers = numbers.collect::<String>();
    let begin = rng.below(2).min(numbers.len());
    (way.name, [&numbers[begin..], &blanks(rng, 0)].concat())
}

fn blanks(rng: &mut Rng, least: usize) -> String {
    let more = if rng.one_in(5) { rng.between(1, 3) } else { 0 };
    " ".repeat(least + more)
}

/// Of the table, or any count if it is none.
fn states(rng: &mut Rng, table: &[u8]) -> usize {
    Table::read(table).map_or_else(|_| rng.between(1, MAX_STATES), |table| table.states)
}
