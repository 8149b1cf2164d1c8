//! Texts of tables: at every limit, each refusal, damaged, cut, and buffers too short or longer.

use super::damage::{self, any_byte, base_byte, bytes, cut, damaged};
use super::rng::Rng;
use super::tables::{Exits::Any, TABLE_LENGTH, Table, line};
use super::{Input, Kind, Lent};

/// Longer than what is prepared, so that a refusal of a text does not depend on that length.
const ROOMY: usize = 8_192;

const fn kind(name: &'static str, count: u64, make: fn(&Rng) -> Input) -> Kind {
    super::kind("read_table", name, count, make)
}

pub const KINDS: [Kind; 28] = [
    kind("small", 3_000, |rng| exact(rng, Table::small(rng, Any).text())),
    kind("medium", 1_200, |rng| exact(rng, Table::medium(rng, Any).text())),
    kind("largest", 150, |rng| exact(rng, Table::largest(rng, Any).text())),
    kind("one-state", 700, |rng| sized(rng, 1, rng.below(5), rng.below(6))),
    kind("256-states", 600, |rng| sized(rng, 256, rng.below(5), rng.below(60))),
    kind("no-labels", 700, |rng| sized(rng, rng.between(1, 6), 0, rng.below(9))),
    kind("40-labels", 500, |rng| sized(rng, rng.between(1, 6), 40, rng.below(20))),
    kind("no-transitions", 700, |rng| sized(rng, rng.between(1, 6), rng.below(5), 0)),
    kind("1024-transitions", 150, |rng| sized(rng, 40, rng.between(4, 40), 1_024)),
    kind("longest-names", 700, |rng| {
        let mut table = Table::small(rng, Any);
        for (name, label) in table.names.iter_mut().zip(b'a'..) {
            name.resize(11, b'_');
            name.push(label);
        }
        exact(rng, table.text())
    }),
    kind("buffer-longer", 1_500, |rng| {
        lent(rng, Table::small(rng, Any).text(), damage::longer(rng, TABLE_LENGTH))
    }),
    kind("buffer-short", 700, |rng| {
        lent(rng, Table::small(rng, Any).text(), damage::shorter(rng, TABLE_LENGTH))
    }),
    kind("buffer-short-text-damaged", 200, |rng| {
        let text = damaged(rng, Table::small(rng, Any).text(), base_byte);
        lent(rng, text, damage::shorter(rng, TABLE_LENGTH))
    }),
    kind("line-missing", 700, |rng| {
        edited(rng, |rng, lines| drop(lines.remove(rng.below(lines.len()))))
    }),
    kind("line-not-laid-out", 800, |rng| edited(rng, |rng, lines| not_laid_out(rng, lines))),
    kind("last-line-without-lf", 400, |rng| {
        edited(rng, |_, lines| {
            let last = lines.len() - 1;
            lines[last].pop();
        })
    }),
    kind("bytes-after", 700, |rng| {
        edited(rng, |rng, lines| {
            lines.push(rng.pick(&["\n", " ", "0", "\0", "     0\n", "\r\n"]).into());
        })
    }),
    kind("header-range", 700, |rng| edited(rng, |rng, lines| number(rng, &mut lines[0], 4))),
    kind("transition-range", 700, |rng| {
        edited(rng, |rng, lines| {
            let at = lines.len() - 1;
            number(rng, &mut lines[at], 3);
        })
    }),
    kind("label-out-of-turn", 500, |rng| {
        edited(rng, |rng, lines| {
            let turn = rng.pick(&["     0", "     2", "     9", "    41", "999999", "    10"]);
            lines[1].splice(..6, turn.bytes());
        })
    }),
    kind("name-again", 900, |rng| {
        let mut table = Table::drawn(rng, Any, 3, rng.between(2, 40), rng.below(5));
        let again = rng.between(1, table.labels() - 1);
        table.names[again] = table.names[rng.below(again)].clone();
        roomy(rng, table.text())
    }),
    kind("not-above", 900, |rng| {
        let table = Table::drawn(rng, Any, 4, 3, rng.between(3, 12));
        let (mut lines, first) = (table.lines(), 1 + table.labels());
        let (one, other) = (rng.between(first, lines.len() - 2), lines.len() - 1);
        if rng.one_in(2) {
            lines.swap(one, other)
        } else {
            lines[other] = lines[one].clone()
        }
        roomy(rng, lines.concat())
    }),
    kind("cut", 900, |rng| exact(rng, cut(rng, Table::small(rng, Any).text()))),
    kind("damaged-base-bytes", 800, |rng| {
        exact(rng, damaged(rng, Table::small(rng, Any).text(), base_byte))
    }),
    kind("damaged-any-byte", 600, |rng| {
        exact(rng, damaged(rng, Table::small(rng, Any).text(), any_byte))
    }),
    kind("random-base-bytes", 350, |rng| exact(rng, bytes(rng, rng.below(80), base_byte))),
    kind("random-any-byte", 200, |rng| exact(rng, bytes(rng, rng.below(80), any_byte))),
    kind("far-too-long", 50, |rng| {
        let mut text = Table::small(rng, Any).text();
        let length = rng.pick(&[1_000, 20_282, 65_535, 65_536, 65_537]);
        text.resize(length, rng.pick(b"\n 9a\0"));
        exact(rng, text)
    }),
];

fn lent(rng: &Rng, text: Vec<u8>, length: usize) -> Input {
    Input::ReadTable { text, table: Lent::drawn(rng, length) }
}

fn exact(rng: &Rng, text: Vec<u8>) -> Input {
    lent(rng, text, TABLE_LENGTH)
}

fn roomy(rng: &Rng, text: Vec<u8>) -> Input {
    lent(rng, text, ROOMY)
}

fn sized(rng: &Rng, states: usize, labels: usize, steps: usize) -> Input {
    exact(rng, Table::drawn(rng, Any, states, labels, steps).text())
}

/// A small table with a label and a transition, and its lines edited.
fn edited(rng: &Rng, edit: fn(&Rng, &mut Vec<Vec<u8>>)) -> Input {
    let states = rng.between(1, 6);
    let table = Table::drawn(rng, Any, states, rng.between(1, 4), rng.between(1, 9));
    let mut lines = table.lines();
    edit(rng, &mut lines);
    roomy(rng, lines.concat())
}

/// A number at or past some limit stands in one of so many columns.
fn number(rng: &Rng, line_: &mut [u8], columns: usize) {
    let number = rng.pick(&[0, 4, 5, 6, 7, 40, 41, 255, 256, 257, 1_024, 1_025, 65_536, 999_999]);
    let at = 6 * rng.below(columns);
    line_[at..at + 6].copy_from_slice(&line(&[number])[..6]);
}

fn not_laid_out(rng: &Rng, lines: &mut [Vec<u8>]) {
    let at = rng.below(lines.len());
    let line = &mut lines[at];
    let end = line.len() - 1;
    match rng.below(7) {
        0 => line.insert(end, b' '),
        1 => line.insert(end, b'\r'),
        2 => line.insert(0, b' '),
        3 => drop(line.remove(0)),
        4 => line[4] = b'0',
        5 => line[rng.below(end)] = rng.pick(b"-+x\t\n"),
        _ => line.rotate_left(1),
    }
}
