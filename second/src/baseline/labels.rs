//! Labels as columns, in masks and in arrays: idle steps stand behind the last label.

use crate::table::{IDLE, MAX_LABELS, SILENT};

pub const IDLE_COLUMN: u8 = MAX_LABELS as u8 + 1;
pub const COLUMNS: usize = MAX_LABELS + 2;
pub const SILENT_COLUMNS: u64 = 1 << SILENT | 1 << IDLE_COLUMN;

pub fn column_of(label: u8) -> u8 {
    if label == IDLE { IDLE_COLUMN } else { label }
}

pub fn label_of(column: u8) -> u8 {
    if column == IDLE_COLUMN { IDLE } else { column }
}

pub fn is_among(mask: u64, column: u8) -> bool {
    mask >> column & 1 == 1
}
