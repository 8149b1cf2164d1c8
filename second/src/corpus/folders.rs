//! Folders for the program: listings of both classes, each refusal, missing files, folders in
//! place of files, LF at the end or not, long files.

use super::damage::{base_byte, cut, damaged};
use super::formulas::{Formula, spaced};
use super::read_formula::{nodes, padded, written};
use super::rng::Rng;
use super::tables::Exits::{self, All, Any, Lacking};
use super::tables::Table;
use super::{Input, Kind};

pub enum File {
    Holds(Vec<u8>),
    Missing,
    /// A folder has the file's name.
    Folder,
}

const fn kind(name: &'static str, count: u64, make: fn(&Rng) -> Input) -> Kind {
    super::kind("program", name, count, make)
}

pub const KINDS: [Kind; 29] = [
    kind("with-exits-class-1", 50, |rng| listed(rng, All, 1, b"\n")),
    kind("with-exits-class-2", 40, |rng| listed(rng, All, 2, b"\n")),
    kind("some-without-class-1", 50, |rng| listed(rng, Lacking, 1, b"\n")),
    kind("some-without-class-2", 40, |rng| listed(rng, Lacking, 2, b"\n")),
    kind("no-lf-at-the-end", 30, |rng| listed(rng, All, 1, b"")),
    kind("two-lf-at-the-end", 10, |rng| listed(rng, All, 1, b"\n\n")),
    kind("crlf-at-the-end", 5, |rng| listed(rng, All, 1, b"\r\n")),
    kind("table-m", 15, |rng| over(rng, Table::m(rng, Lacking), |rng, table| ended(rng, table, 1))),
    kind("table-cut", 20, |rng| table_edited(rng, cut)),
    kind("table-damaged", 30, |rng| table_edited(rng, |rng, text| damaged(rng, text, base_byte))),
    kind("table-range", 20, |rng| {
        table_edited(rng, |rng, mut text| {
            let number = rng.pick(&["   257", "    41", "  1025", "999999"]);
            let at = 6 * rng.below(3);
            text.splice(at..at + 6, number.bytes());
            text
        })
    }),
    kind("table-name-again", 15, |rng| {
        let mut table = Table::drawn(rng, All, 3, 4, 5);
        table.names[3] = table.names[rng.below(3)].clone();
        over(rng, table, |_, _| b"T\n".to_vec())
    }),
    kind("table-not-above", 20, |rng| {
        let mut lines = Table::drawn(rng, All, 3, 4, 5).lines();
        let last = lines.len() - 1;
        lines.swap(last - 1, last);
        files(File::Holds(lines.concat()), formula(rng))
    }),
    kind("formula-damaged", 30, |rng| {
        over_small(rng, |rng, table| damaged(rng, ended(rng, table, 1), base_byte))
    }),
    kind("formula-cut", 15, |rng| over_small(rng, |rng, table| cut(rng, ended(rng, table, 1)))),
    kind("formula-unknown-name", 15, |rng| over_small(rng, |_, _| b"EU[*;quite] T\n".to_vec())),
    kind("formula-over-40-nodes", 10, |rng| {
        over_small(rng, |rng, _| nodes(rng, rng.between(41, 50)))
    }),
    kind("formula-without-class", 15, |rng| {
        over_small(rng, |rng, table| {
            let formula = Formula::without_class(rng, table.labels());
            spaced(rng, &formula.tokens(rng, &table.names), 1)
        })
    }),
    kind("formula-512-bytes", 10, |rng| {
        over_small(rng, |rng, table| [padded(rng, table, 512), b"\n".to_vec()].concat())
    }),
    kind("formula-over-512-bytes", 10, |rng| {
        over_small(rng, |rng, table| {
            padded(rng, table, rng.pick(&[513, 514, 1_025, 65_537, 1 << 20]))
        })
    }),
    kind("rows-over-1024", 10, |rng| ring(rng, rng.between(240, 256), 0, 5)),
    kind("edges-over-4096", 10, |rng| ring(rng, 40, rng.between(500, 900), 4)),
    kind("long-listing", 5, |rng| ring(rng, 250, 0, 3)),
    kind("table-missing", 5, |rng| files(File::Missing, formula(rng))),
    kind("formula-missing", 5, |rng| files(table(rng), File::Missing)),
    kind("table-a-folder", 5, |rng| files(File::Folder, formula(rng))),
    kind("formula-a-folder", 5, |rng| files(table(rng), File::Folder)),
    kind("both-missing", 1, |_| files(File::Missing, File::Missing)),
    kind("table-long", 4, |rng| {
        let mut text = Table::largest(rng, Any).text();
        text.resize(rng.pick(&[20_300, 65_536, 1 << 20]), rng.pick(b"\n 9"));
        files(File::Holds(text), formula(rng))
    }),
];

fn files(table: File, formula: File) -> Input {
    Input::Program { table, formula }
}

fn table(rng: &Rng) -> File {
    File::Holds(Table::small(rng, All).text())
}

fn formula(rng: &Rng) -> File {
    File::Holds(rng.pick(&["T\n", "~T", "EX[*] T\n", "EU[*;~*] T"]).into())
}

fn over(rng: &Rng, table: Table, formula: fn(&Rng, &Table) -> Vec<u8>) -> Input {
    let formula = formula(rng, &table);
    files(File::Holds(table.text()), File::Holds(formula))
}

fn over_small(rng: &Rng, formula: fn(&Rng, &Table) -> Vec<u8>) -> Input {
    over(rng, Table::small(rng, All), formula)
}

fn ended(rng: &Rng, table: &Table, class: u8) -> Vec<u8> {
    [written(rng, table, class, 1), b"\n".to_vec()].concat()
}

fn listed(rng: &Rng, exits: Exits, class: u8, end: &[u8]) -> Input {
    let table = Table::small(rng, exits);
    let formula = [written(rng, &table, class, 1), end.to_vec()].concat();
    files(File::Holds(table.text()), File::Holds(formula))
}

fn table_edited(rng: &Rng, edit: fn(&Rng, Vec<u8>) -> Vec<u8>) -> Input {
    let table = Table::small(rng, All);
    let formula = File::Holds(ended(rng, &table, 1));
    files(File::Holds(edit(rng, table.text())), formula)
}

/// A ring of states and so many untils.
fn ring(rng: &Rng, states: usize, steps: usize, untils: usize) -> Input {
    let text = "EU[*]".repeat(untils) + "T\n";
    files(File::Holds(Table::ring(rng, states, steps).text()), File::Holds(text.into()))
}
