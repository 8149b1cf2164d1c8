//! Random folders for the program `explain`: a table and a formula in files, of every kind that a
//! file can be.

use super::edits::{self, Edit};
use super::kinds::Kinds;
use super::questions::{Question, question};
use super::rng::Rng;
use super::{formula_texts, formulas, marks, short, table_texts, tables};
use crate::formula::{MAX_BYTES, MAX_NODES};
use crate::table::{MAX_STATES, MAX_TRANSITIONS, Step, Table};

pub enum File {
    Holds(Vec<u8>),
    Missing,
    /// A folder has the file's name.
    Folder,
}

impl File {
    /// 01: "a file that can't be opened counts as empty".
    pub fn contents(&self) -> &[u8] {
        match self {
            File::Holds(bytes) => bytes,
            File::Missing | File::Folder => &[],
        }
    }
}

/// What a folder has, each file with its name.
pub trait Folder {
    fn files(&self) -> [(&'static str, &File); 2];
}

pub struct Files {
    pub table: File,
    pub formula: File,
}

impl Folder for Files {
    fn files(&self) -> [(&'static str, &File); 2] {
        [("table.txt", &self.table), ("formula.txt", &self.formula)]
    }
}

/// The numbers that a folder can be answered by, 0 for a listing.
pub const NUMBERS: [u32; 12] = [0, 1, 2, 3, 4, 5, 6, 7, 8, 9, 11, 12];

/// One way to make both files.
pub struct Way {
    pub name: &'static str,
    /// The numbers that some of its folders must be answered by.
    pub numbers: &'static [u32],
    pub files: fn(&mut Rng) -> Files,
}

const fn way(name: &'static str, numbers: &'static [u32], files: fn(&mut Rng) -> Files) -> Way {
    Way { name, numbers, files }
}

pub const WAYS: [Way; 74] = [
    way("whole texts", &[0], |rng| whole(rng).files()),
    way("table of any text", &[0, 1], |rng| with_table(rng, table_texts::text)),
    way("formula of any text", &[0, 6], |rng| over(rng, small_table).files()),
    way("number out of range", &[2], |rng| with_table(rng, table_texts::out_of_range)),
    way("name used twice", &[3], |rng| with_table(rng, table_texts::name_used_twice)),
    way("transition not above", &[4], |rng| with_table(rng, table_texts::not_above)),
    way("name that the table lacks", &[7], |rng| with_formula(rng, formula_texts::lacking_name)),
    way("name unknown only by its mark", &[7], |rng| with_formula(rng, marks::unknown_by_mark)),
    way("operands of a direction", &[0], |rng| with_formula(rng, marks::directed)),
    way("table: a mark doubled", &[1], |rng| mark_in_table(rng, marks::double)),
    way("table: a blank before a mark", &[1], |rng| mark_in_table(rng, marks::separate)),
    way("table: a mark alone", &[1], |rng| mark_in_table(rng, marks::leave_alone)),
    way("table: thirteen letters before a mark", &[1], |rng| mark_in_table(rng, marks::lengthen)),
    way("table: another mark", &[3], |rng| {
        let table = tables::with_three_of_a_stem(rng);
        Texts { table: marks::in_table(rng, &table, marks::exchange), ..whole(rng) }.files()
    }),
    way("table: a mark added", &[1], |rng| with_table(rng, marks::added_in_table)),
    way("formula: a mark doubled", &[6], |rng| mark_in_formula(rng, marks::double)),
    way("formula: a blank before a mark", &[6], |rng| mark_in_formula(rng, marks::separate)),
    way("formula: thirteen letters before a mark", &[6], |rng| {
        mark_in_formula(rng, marks::lengthen)
    }),
    way("formula: another mark", &[7], |rng| mark_in_formula(rng, marks::exchange)),
    way("formula: a mark added", &[6, 7], |rng| with_formula(rng, marks::added_in_formula)),
    way("short forms", &[0], |rng| with_formula(rng, short::line)),
    way("short forms of 39 to 41 nodes", &[0, 8], |rng| {
        with_formula(rng, short::about_forty_nodes)
    }),
    way("short forms in 511 to 513 bytes", &[0, 5], |rng| {
        with_formula(rng, short::about_512_bytes)
    }),
    way("short forms of up to 1,277 nodes", &[8], |rng| {
        with_formula(rng, |rng, _| short::most_nodes(rng))
    }),
    way("short forms without class", &[9], |rng| with_formula(rng, short::without_class)),
    way("`&` beside `|`", &[9], |rng| with_formula(rng, short::beside_or)),
    way("name that the table lacks behind a short form", &[7], |rng| {
        with_formula(rng, short::lacking_name)
    }),
    way("formula: a short form cut off", &[6], |rng| with_formula(rng, short::cut_off)),
    way("formula: a part of a keyword", &[6], |rng| with_formula(rng, short::keyword_in_part)),
    way("formula: a set behind EF or AG", &[6], |rng| with_formula(rng, short::needless_set)),
    way("formula: no set behind DIA or BOX", &[6], |rng| with_formula(rng, short::missing_set)),
    way("formula: `.` or `;` in DIA or BOX", &[6], |rng| with_formula(rng, short::no_set)),
    way("formula: `&` without a side", &[6], |rng| with_formula(rng, short::missing_side)),
    way("formula: `&` in a set", &[6], |rng| with_formula(rng, short::in_a_set)),
    way("over 40 nodes", &[8], |rng| with_formula(rng, formula_texts::over_forty_nodes)),
    way("node without class", &[9], |rng| with_formula(rng, formula_texts::without_class)),
    way("formula of about 40 nodes", &[0, 8], |rng| {
        formula_edited(rng, |rng, text| {
            text.splice(.., std::iter::repeat_n(b'~', rng.between(38, 41)).chain([b'T']));
        })
    }),
    way("table: byte changed", &[1], |rng| table_edited(rng, edits::change)),
    way("table: byte inserted", &[1], |rng| table_edited(rng, edits::insert)),
    way("table: byte removed", &[1], |rng| table_edited(rng, edits::remove)),
    way("table: cut", &[1], |rng| table_edited(rng, edits::cut)),
    way("table: line doubled", &[1, 4], |rng| table_edited(rng, edits::double_line)),
    way("table: bytes after the last line", &[1], |rng| table_edited(rng, edits::append)),
    way("table: no LF at the end", &[1], |rng| table_edited(rng, edits::without_end)),
    way("table: CRLF", &[1], |rng| table_edited(rng, edits::carriage_return)),
    way("formula: byte changed", &[6], |rng| formula_edited(rng, edits::change)),
    way("formula: byte inserted", &[6], |rng| formula_edited(rng, edits::insert)),
    way("formula: byte removed", &[6], |rng| formula_edited(rng, edits::remove)),
    way("formula: cut", &[6], |rng| formula_edited(rng, edits::cut)),
    way("formula: line doubled", &[6], |rng| formula_edited(rng, edits::double_line)),
    way("formula: bytes after the line", &[6], |rng| formula_edited(rng, edits::append)),
    way("formula: no LF at the end", &[0], |rng| formula_edited(rng, edits::without_end)),
    way("formula: CRLF", &[6], |rng| formula_edited(rng, edits::carriage_return)),
    way("table missing", &[1], |rng| Files { table: File::Missing, ..whole(rng).files() }),
    way("formula missing", &[6], |rng| Files { formula: File::Missing, ..whole(rng).files() }),
    way("both missing", &[1], |_| Files { table: File::Missing, formula: File::Missing }),
    way("table empty", &[1], |rng| table_edited(rng, |_, text| text.clear())),
    way("formula empty", &[6], |rng| formula_edited(rng, |_, text| text.clear())),
    way("both empty", &[1], |_| Texts { table: Vec::new(), formula: Vec::new() }.files()),
    way("table a folder", &[1], |rng| Files { table: File::Folder, ..whole(rng).files() }),
    way("formula a folder", &[6], |rng| Files { formula: File::Folder, ..whole(rng).files() }),
    way("both folders", &[1], |_| Files { table: File::Folder, formula: File::Folder }),
    way("formula of about 512 bytes", &[0, 5], |rng| {
        let length = rng.between(MAX_BYTES - 1, MAX_BYTES + 3);
        long_formula(rng, length)
    }),
    way("formula of about a power of two", &[5], |rng| {
        let length = (1 << rng.between(10, 17)) + rng.between(0, 2) - 1;
        long_formula(rng, length)
    }),
    way("formula of a megabyte", &[5], |rng| {
        let length = (1 << 20) + rng.between(0, 2) - 1;
        long_formula(rng, length)
    }),
    way("largest table", &[0], |rng| over(rng, tables::longest_table).files()),
    way("largest table without marks", &[0], |rng| over(rng, tables::table_of_most).files()),
    way("table of 20,321 to 20,340 bytes", &[1], |rng| {
        let length = rng.between(20_321, 20_340);
        long_table(rng, length)
    }),
    way("table of a megabyte", &[1], |rng| long_table(rng, 1 << 20)),
    way("rows and edges at the limits", &[0, 11], |rng| at_the_limits(rng, 255, 1_023)),
    way("rows at the limit", &[0, 11], |rng| {
        let transitions = rng.between(255, 1_022);
        at_the_limits(rng, 255, transitions)
    }),
    way("edges at the limit", &[0, 12], |rng| {
        let states = rng.between(40, 254);
        at_the_limits(rng, states, 1_023)
    }),
    way("more edges than places", &[12], |rng| {
        let untils = rng.pick(&[3, 6, 12, MAX_NODES - 1]);
        let states = rng.between(MAX_STATES / untils, (1_024 / untils).min(MAX_STATES));
        let transitions = rng.between(500, MAX_TRANSITIONS);
        untils_over(rng, untils, states, transitions)
    }),
    way("more rows than places", &[11], |rng| {
        let untils = rng.between(5, MAX_NODES - 1);
        let states = rng.between(1_024 / untils + 1, MAX_STATES);
        let transitions = rng.between(3 * states, MAX_TRANSITIONS);
        untils_over(rng, untils, states, transitions)
    }),
];

/// The same folder for the same seed and index. Every other one has whole texts, and the ways take
/// turns at the others.
pub fn folder(seed: u64, index: u64) -> (&'static Way, Files) {
    let turn = if index.is_multiple_of(2) { 0 } else { index / 2 % WAYS.len() as u64 };
    let way = &WAYS[turn as usize];
    (way, (way.files)(&mut Rng::of_input(seed, way.name, index)))
}

struct Texts {
    table: Vec<u8>,
    formula: Vec<u8>,
}

impl Texts {
    fn files(self) -> Files {
        Files { table: File::Holds(self.table), formula: File::Holds(self.formula) }
    }
}

fn whole(rng: &mut Rng) -> Texts {
    let question = question(rng, 100);
    texts(rng, &question)
}

pub fn files_of(rng: &mut Rng, question: &Question) -> Files {
    texts(rng, question).files()
}

/// The table's text and, ended by LF or not, one of the formula.
fn texts(rng: &mut Rng, question: &Question) -> Texts {
    let Question { table, formula } = question;
    let tokens = formulas::tokens(rng, formula, table);
    let mut formula = formulas::spaced(rng, &tokens);
    edits::end_or_not(rng, &mut formula);
    Texts { table: table.text(), formula }
}

fn small_table(rng: &mut Rng) -> Table {
    tables::table(rng, &mut Kinds::default(), tables::Size::Small)
}

/// A table and any text over it.
fn over(rng: &mut Rng, table: fn(&mut Rng) -> Table) -> Texts {
    let table = table(rng);
    let mut formula = formula_texts::text(rng, &table);
    edits::end_or_not(rng, &mut formula);
    Texts { table: table.text(), formula }
}

/// A table's text made so of a small table or of the largest, beside a formula.
fn with_table(rng: &mut Rng, text: impl Fn(&mut Rng, &Table) -> Vec<u8>) -> Files {
    let table = match rng.one_in(4) {
        true => tables::longest_table(rng),
        false => small_table(rng),
    };
    Texts { table: text(rng, &table), ..whole(rng) }.files()
}

fn mark_in_table(rng: &mut Rng, damage: marks::Damage) -> Files {
    with_table(rng, |rng, table| marks::in_table(rng, table, damage))
}

/// A small table and a formula's text made so over it, ended by LF or not.
fn with_formula(rng: &mut Rng, text: impl Fn(&mut Rng, &Table) -> Vec<u8>) -> Files {
    let table = small_table(rng);
    let mut formula = text(rng, &table);
    edits::end_or_not(rng, &mut formula);
    Texts { table: table.text(), formula }.files()
}

fn mark_in_formula(rng: &mut Rng, damage: marks::Damage) -> Files {
    with_formula(rng, |rng, table| marks::in_formula(rng, table, damage))
}

/// So many untils one in the other: about as many rows for each state, and about half the square
/// of that edges for each transition.
fn untils_over(rng: &mut Rng, untils: usize, states: usize, transitions: usize) -> Files {
    let table = tables::with_counts(rng, &mut Kinds::default(), states, 4, transitions);
    let formula = ["EU[*] ".repeat(untils), "T\n".into()].concat().into_bytes();
    Texts { table: table.text(), formula }.files()
}

fn table_edited(rng: &mut Rng, edit: Edit) -> Files {
    let mut texts = whole(rng);
    edit(rng, &mut texts.table);
    texts.files()
}

fn formula_edited(rng: &mut Rng, edit: Edit) -> Files {
    let mut texts = whole(rng);
    edit(rng, &mut texts.formula);
    texts.files()
}

/// Of exactly so many bytes, and LF or not: a formula with blanks in it, or one byte all along.
fn long_formula(rng: &mut Rng, length: usize) -> Files {
    let Texts { table, formula } = whole(rng);
    let inner = formula.strip_suffix(b"\n").unwrap_or(&formula);
    let mut text = match rng.below(4) {
        0 => Vec::new(),
        _ => [b"~~(".as_slice(), inner, b")"].concat(),
    };
    let filler = if text.is_empty() { rng.pick(b"T~\n\r ") } else { b' ' };
    let blanks = length.saturating_sub(text.len());
    let at = text.len().min(3);
    text.splice(at..at, std::iter::repeat_n(filler, blanks));
    text.truncate(length);
    edits::end_or_not(rng, &mut text);
    Texts { table, formula: text }.files()
}

/// A table, sometimes cut, and bytes behind it up to so many.
fn long_table(rng: &mut Rng, length: usize) -> Files {
    let mut texts = match rng.one_in(2) {
        true => whole(rng),
        false => over(rng, tables::longest_table),
    };
    let again = texts.table.clone();
    if rng.one_in(4) {
        edits::cut(rng, &mut texts.table);
    }
    let behind: &[u8] = rng.pick(&[b"\n", b" ", b"9", b"\0", &again]);
    let behind = behind.iter().cycle().take(length.saturating_sub(texts.table.len()));
    texts.table.extend(behind);
    texts.files()
}

/// Listings of 1,023 to 1,025 rows with 255 states, of 4,095 to 4,097 edges with 1,023 transitions.
pub fn at_the_limits(rng: &mut Rng, states: usize, transitions: usize) -> Files {
    let last = rng.between(3, 5);
    let table = ring(rng, states, transitions, last);
    // Each transition is an edge to the until and to three of the arms; those by d to a fourth.
    let formula = b"EU[*] (EX[*] T | EX[*] T | EX[*] T | EX[d] T)\n".to_vec();
    Texts { table: table.text(), formula }.files()
}

/// All states in a ring, some further transitions by a, b or c, and so many by d.
fn ring(rng: &mut Rng, states: usize, transitions: usize, last: usize) -> Table {
    let mut steps = std::collections::BTreeSet::new();
    for from in 0..states {
        let label = if from < last { 4 } else { 1 };
        steps.insert(Step { from: from as u8, label, to: ((from + 1) % states) as u8 });
    }
    while steps.len() < transitions {
        let (from, to) = (rng.below(states) as u8, rng.below(states) as u8);
        steps.insert(Step { from, label: rng.between(1, 3) as u8, to });
    }
    Table {
        states,
        start: rng.below(states) as u8,
        names: ["a", "b", "c", "d"].map(|name| name.as_bytes().to_vec()).into(),
        transitions: steps.into_iter().collect(),
    }
}
