//! Random files of two tables, to be combined: as they are written, as long as there may be, damaged,
//! and none.

use super::edits;
use super::folders::{File, Folder};
use super::kinds::{Kinds, Way, way};
use super::pairs;
use super::rng::Rng;
use super::table_texts;
use super::tables::{longest_table, marked, with_counts};
use crate::table::{MARKS, MAX_TRANSITIONS, Table};

pub struct Pair {
    pub first: File,
    pub second: File,
}

/// With the kinds of the tables and of the files.
pub struct Input {
    pub kinds: Kinds,
    pub pair: Pair,
}

impl Folder for Input {
    fn files(&self) -> [(&'static str, &File); 2] {
        [("first.txt", &self.pair.first), ("second.txt", &self.pair.second)]
    }
}

pub const FILES: &str = "files";

/// What stands in the files of two tables.
pub const FILES_OF: [Way<pairs::Pair, Pair>; 15] = [
    way("as written", 40, &[0, 17, 18, 19], |_, tables| texts(tables)),
    way("the first of any text", 4, &[1], |rng, tables| first(tables, any_text(rng, tables))),
    way("the second of any text", 4, &[1], |rng, tables| second(tables, any_text(rng, tables))),
    way("both of any text", 4, &[1], |rng, tables| Pair {
        first: any_text(rng, tables),
        second: any_text(rng, tables),
    }),
    way("the first: number out of range", 1, &[2], |rng, tables| {
        first(tables, text(rng, tables, table_texts::out_of_range))
    }),
    way("the second: number out of range", 1, &[2], |rng, tables| {
        second(tables, text(rng, tables, table_texts::out_of_range))
    }),
    way("the first: name used twice", 1, &[3], |rng, tables| {
        first(tables, text(rng, tables, table_texts::name_used_twice))
    }),
    way("the second: name used twice", 1, &[3], |rng, tables| {
        second(tables, text(rng, tables, table_texts::name_used_twice))
    }),
    way("the first: transition not above", 1, &[4], |rng, tables| {
        first(tables, text(rng, tables, table_texts::not_above))
    }),
    way("the second: transition not above", 1, &[4], |rng, tables| {
        second(tables, text(rng, tables, table_texts::not_above))
    }),
    way("none, or a folder", 3, &[1], |rng, tables| {
        let other = if rng.one_in(2) { File::Missing } else { File::Folder };
        either(rng, tables, other)
    }),
    way("nothing but one state", 1, &[0], |_, _| texts(&[one_state(), one_state()])),
    way("about 20,321 bytes, beside one state", 2, &[0, 1], |rng, _| {
        let mut long = longest_table(rng).text();
        if rng.one_in(2) {
            edits::append(rng, &mut long);
        }
        either(rng, &[one_state(), one_state()], File::Holds(long))
    }),
    way("up to 262,144 transitions", 1, &[19], |rng, _| {
        let labels = rng.between(2, 4);
        let tables = MARKS.map(|mark| {
            let table = with_counts(rng, &mut Kinds::default(), 16, labels, MAX_TRANSITIONS);
            let names = (b'a'..).take(labels).map(|stem| marked(vec![stem], mark));
            Table { names: names.collect(), ..table }
        });
        texts(&tables)
    }),
    way("a megabyte", 1, &[1], |rng, tables| {
        let mut long = tables[0].text();
        long.resize(1 << 20, rng.pick(b"\n 9\0"));
        either(rng, tables, File::Holds(long))
    }),
];

/// The same for the same seed and index.
pub fn input(seed: u64, index: u64) -> Input {
    let rng = &mut Rng::of_input(seed, "side by side", index);
    let mut kinds = Kinds::default();
    let tables = pairs::pair(rng, &mut kinds);
    let pair = kinds.make(rng, FILES, &FILES_OF, &tables);
    Input { kinds, pair }
}

fn one_state() -> Table {
    Table { states: 1, start: 0, names: Vec::new(), transitions: Vec::new() }
}

fn texts(tables: &pairs::Pair) -> Pair {
    let [first, second] = [0, 1].map(|table: usize| File::Holds(tables[table].text()));
    Pair { first, second }
}

fn first(tables: &pairs::Pair, first: File) -> Pair {
    Pair { first, ..texts(tables) }
}

fn second(tables: &pairs::Pair, second: File) -> Pair {
    Pair { second, ..texts(tables) }
}

fn either(rng: &mut Rng, tables: &pairs::Pair, file: File) -> Pair {
    if rng.one_in(2) { first(tables, file) } else { second(tables, file) }
}

fn any_text(rng: &mut Rng, tables: &pairs::Pair) -> File {
    text(rng, tables, table_texts::text)
}

fn text(rng: &mut Rng, tables: &pairs::Pair, text: fn(&mut Rng, &Table) -> Vec<u8>) -> File {
    let table = rng.below(2);
    File::Holds(text(rng, &tables[table]))
}
