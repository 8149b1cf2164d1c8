//! A table's text: its fields are copied from a list of all that a transition has.

use super::prepared::{Table, checked_table};
use crate::columns::COLUMNS;
use crate::prepared::TABLE_LENGTH;
use crate::reply::{Refusal, Reply};
use crate::table::{MAX_STATES, MAX_TEXT};

pub fn table_text(table: &[u8], text: &mut [u8]) -> Reply {
    written(table, text).into()
}

fn written(table: &[u8], text: &mut [u8]) -> Result<u64, Refusal> {
    let table = table.first_chunk().ok_or(Refusal::ShortBuffer(TABLE_LENGTH))?;
    let text = text.first_chunk_mut().ok_or(Refusal::ShortBuffer(MAX_TEXT))?;
    let table = checked_table(table).ok_or(Refusal::PreparedTable)?;
    Ok(write(&table, text) as u64)
}

type Field = [u8; COLUMNS];

const HEAD: usize = 4 * COLUMNS + 1;
const LINE: usize = 3 * COLUMNS + 1;

/// Of a number of at most four digits.
const fn field(number: usize) -> Field {
    let mut columns = [b' '; COLUMNS];
    let (mut left, mut at) = (number, COLUMNS);
    loop {
        at -= 1;
        columns[at] = b'0' + (left % 10) as u8;
        left /= 10;
        if left == 0 {
            return columns;
        }
    }
}

/// By state or label.
const FIELDS: [Field; MAX_STATES] = {
    let mut fields = [[0; COLUMNS]; MAX_STATES];
    let mut number = 0;
    while number < MAX_STATES {
        fields[number] = field(number);
        number += 1;
    }
    fields
};

fn line<const FIELDS: usize>(fields: [Field; FIELDS], line: &mut [u8]) {
    for (columns, field) in line.as_chunks_mut().0.iter_mut().zip(fields) {
        *columns = field;
    }
    line[FIELDS * COLUMNS] = b'\n';
}

/// Its length.
fn write(table: &Table, text: &mut [u8; MAX_TEXT]) -> usize {
    let counts = [table.states, table.labels, table.transitions.len(), table.start];
    line(counts.map(field), &mut text[..HEAD]);
    let mut at = HEAD;
    for (name, number) in table.names.iter().zip(1..) {
        let length = usize::from(name[0]);
        let place = &mut text[at..][..COLUMNS + length + 2];
        place[..COLUMNS].copy_from_slice(&FIELDS[number]);
        place[COLUMNS] = b' ';
        place[COLUMNS + 1..][..length].copy_from_slice(&name[1..=length]);
        place[COLUMNS + 1 + length] = b'\n';
        at += place.len();
    }
    let lines = text[at..].as_chunks_mut::<LINE>().0;
    for (place, step) in lines.iter_mut().zip(table.transitions) {
        line(step.map(|number| FIELDS[usize::from(number)]), place);
    }
    at + table.transitions.len() * LINE
}
