//! Texts of tables, with all the faults that 1 to 4 refuse. What is wrong with a name's mark is in
//! `marks`.

use super::bytes::{damage, damage_an_end, random_bytes};
use super::kinds::{Kinds, Way, pick, way};
use super::marks;
use super::rng::Rng;
use super::tables::{longest_table, name, with_counts, with_labels};
use crate::columns;
use crate::table::{IDLE, MAX_LABELS, MAX_STATES, MAX_STEM, MAX_TRANSITIONS, Table};

/// Texts to read, of a table or near it.
pub const TEXTS: [Way<Table, Vec<u8>>; 18] = [
    way("as written", 32, &[0], |_, table| table.text()),
    way("bytes damaged", 30, &[1], |rng, table| {
        let mut text = table.text();
        for _ in 0..rng.between(1, 3) {
            damage(rng, &mut text);
        }
        text
    }),
    way("an end damaged", 4, &[1], |rng, table| {
        let mut text = table.text();
        damage_an_end(rng, &mut text);
        text
    }),
    way("faulty lines", 36, &[1, 2, 3, 4], faulty_text),
    way("number out of range", 6, &[2], out_of_range),
    way("name used twice", 3, &[3], name_used_twice),
    way("transition not above", 3, &[4], not_above),
    way("random bytes", 6, &[1], |rng, _| {
        let length = rng.below(80);
        random_bytes(rng, length)
    }),
    way("empty", 3, &[1], |_, _| Vec::new()),
    way("far longer", 3, &[1], far_longer),
    way("longest", 1, &[0], |rng, _| longest_table(rng).text()),
    way("a mark doubled", 2, &[1], |rng, table| marks::in_table(rng, table, marks::double)),
    way("a blank before a mark", 2, &[1], |rng, table| {
        marks::in_table(rng, table, marks::separate)
    }),
    way("a mark alone", 1, &[1], |rng, table| marks::in_table(rng, table, marks::leave_alone)),
    way("thirteen letters before a mark", 2, &[1], |rng, table| {
        marks::in_table(rng, table, marks::lengthen)
    }),
    way("another mark", 3, &[0, 3], |rng, table| marks::in_table(rng, table, marks::exchange)),
    way("a mark dropped", 3, &[0, 3], |rng, table| marks::in_table(rng, table, marks::remove)),
    way("a mark added", 3, &[0, 1, 3], marks::added_in_table),
];

/// In one of these ways.
pub fn text(rng: &mut Rng, table: &Table) -> Vec<u8> {
    (pick(rng, &TEXTS).make)(rng, table)
}

fn far_longer(rng: &mut Rng, table: &Table) -> Vec<u8> {
    let length = match rng.one_in(100) {
        true => rng.pick(&[1 << 20, (1 << 24) + 1]),
        false => rng.pick(&[1_000, 65_535, 65_536, 65_537]),
    };
    let mut text = table.text();
    let behind = match rng.below(3) {
        0 => vec![b'\n'; length],
        1 => vec![b' '; length],
        _ => text.repeat(length.div_ceil(text.len())),
    };
    if rng.one_in(2) {
        text.clear();
    }
    text.extend_from_slice(&behind);
    text
}

/// One number outside its range or turn: on the first line, a label's or a transition's.
pub fn out_of_range(rng: &mut Rng, table: &Table) -> Vec<u8> {
    const MOST: usize = 999_999;
    let (states, labels, transitions) = (table.states, table.labels(), table.transitions.len());
    let (line, column, above) = match rng.below(3) {
        1 if labels > 0 => {
            let label = rng.between(1, labels);
            (label, 0, rng.pick(&[label - 1, label + 1, 0, MOST]))
        }
        2 if transitions > 0 => {
            let line = 1 + labels + rng.below(transitions);
            let column = rng.below(3);
            let least = if column == 1 { labels + 1 } else { states };
            let idle = usize::from(IDLE);
            let above = rng.pick(&[least, least, least + 1, idle, MAX_STATES, MOST]);
            (line, column, above.max(least))
        }
        _ => {
            let column = rng.below(4);
            let least = [MAX_STATES, MAX_LABELS, MAX_TRANSITIONS, states - 1][column] + 1;
            let above = rng.pick(&[least, least, least + 1, MOST]);
            (0, column, if column == 0 && rng.one_in(2) { 0 } else { above })
        }
    };
    let mut text = table.text();
    let begin: usize =
        text.split_inclusive(|&byte| byte == b'\n').take(line).map(<[u8]>::len).sum();
    let mut columns = Vec::new();
    columns::write(above as u64, &mut columns);
    let field = begin + column * columns::COLUMNS;
    text[field..field + columns::COLUMNS].copy_from_slice(&columns);
    text
}

pub fn name_used_twice(rng: &mut Rng, table: &Table) -> Vec<u8> {
    let mut table = with_labels(rng, table, 2);
    let label = rng.between(1, table.labels() - 1);
    table.names[label] = table.names[rng.below(label)].clone();
    table.text()
}

/// Two transitions exchanged, or one that stands twice.
pub fn not_above(rng: &mut Rng, table: &Table) -> Vec<u8> {
    let mut table = match table.transitions.len() {
        0 | 1 => with_counts(rng, &mut Kinds::default(), 4, 2, 9),
        _ => table.clone(),
    };
    let at = rng.between(1, table.transitions.len() - 1);
    match rng.one_in(2) {
        true => table.transitions.swap(at - 1, at),
        false => table.transitions[at] = table.transitions[at - 1],
    }
    table.text()
}

/// Lines that are faulty as lines: numbers out of range or turn, names used twice, lines swapped.
fn faulty_text(rng: &mut Rng, table: &Table) -> Vec<u8> {
    let text = table.text();
    let lines = text.split_inclusive(|&byte| byte == b'\n');
    let mut lines: Vec<Vec<u8>> = lines.map(<[u8]>::to_vec).collect();
    for _ in 0..rng.between(1, 2) {
        faulty_line(rng, table, &mut lines);
    }
    lines.concat()
}

fn faulty_line(rng: &mut Rng, table: &Table, lines: &mut Vec<Vec<u8>>) {
    if lines.is_empty() {
        return;
    }
    let line = rng.below(lines.len());
    let other = rng.below(lines.len());
    match rng.below(11) {
        0 | 1 => set_number(rng, table, &mut lines[0]),
        2 | 3 => set_number(rng, table, &mut lines[line]),
        4 => lines.swap(line, other),
        5 => lines.insert(line, lines[other].clone()),
        6 => drop(lines.remove(line)),
        7..10 => set_name(rng, table, lines),
        _ => set_layout(rng, &mut lines[line]),
    }
}

/// Puts a number near some limit in one of the columns.
fn set_number(rng: &mut Rng, table: &Table, line: &mut [u8]) {
    let limits = [
        0,
        table.states,
        table.labels(),
        table.transitions.len(),
        MAX_STATES,
        MAX_LABELS,
        MAX_TRANSITIONS,
        999_999,
    ];
    let number = (rng.pick(&limits) + rng.below(3)).saturating_sub(1);
    let field = rng.below(4) * columns::COLUMNS;
    let mut columns = Vec::new();
    columns::write(number as u64, &mut columns);
    if let Some(place) = line.get_mut(field..field + columns::COLUMNS) {
        place.copy_from_slice(&columns[..columns::COLUMNS]);
    }
}

fn set_name(rng: &mut Rng, table: &Table, lines: &mut [Vec<u8>]) {
    let label = rng.between(1, table.labels().max(1));
    let Some(line) = lines.get_mut(label) else {
        return;
    };
    let new = match rng.below(12) {
        0 => name(rng, MAX_STEM + 1),
        1 => Vec::new(),
        2 => b"0a".to_vec(),
        3 => b"aB".to_vec(),
        4 => b"a b".to_vec(),
        _ if table.labels() > 0 => table.names[rng.below(table.labels())].clone(),
        _ => b"a".to_vec(),
    };
    line.truncate(columns::COLUMNS + 1);
    line.extend_from_slice(&new);
    line.push(b'\n');
}

fn set_layout(rng: &mut Rng, line: &mut Vec<u8>) {
    let end = line.len().saturating_sub(1);
    match rng.below(6) {
        0 => line.insert(end, b' '),
        1 => line.insert(end, b'\r'),
        2 => line.insert(0, b' '),
        3 => drop(line.pop()),
        4 => {
            if let Some(blank) = line.iter().rposition(|&byte| byte == b' ') {
                line[blank] = b'0';
            }
        }
        _ => line.rotate_left(1),
    }
}
