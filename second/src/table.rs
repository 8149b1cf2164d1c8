//! State tables (Definition 1) and their text, line by line.

use crate::columns::{self, COLUMNS};
use crate::reply::Refusal;

pub const MAX_STATES: usize = 256;
pub const MAX_LABELS: usize = 40;
pub const MAX_TRANSITIONS: usize = 1_024;
/// Of the letters, digits and underscores of a name, without its mark.
pub const MAX_STEM: usize = 12;
pub const MAX_NAME: usize = MAX_STEM + 1;
/// Of a table's text: its lines, each with its end.
pub const MAX_TEXT: usize = (4 * COLUMNS + 1)
    + MAX_LABELS * (COLUMNS + 1 + MAX_NAME + 1)
    + MAX_TRANSITIONS * (3 * COLUMNS + 1);

pub const SILENT: u8 = 0;
/// 02: "The idle step now prints as label 99." No text of a table has it.
pub const IDLE: u8 = 99;

/// 02: "It still counts as silent in formulas".
pub fn is_silent(label: u8) -> bool {
    label == SILENT || label == IDLE
}

/// The labels that a step may carry, rising.
pub fn alphabet(labels: usize) -> impl Iterator<Item = u8> {
    (SILENT..=labels as u8).chain([IDLE])
}

/// Which way a label goes, by the mark that its name ends in.
#[derive(Clone, Copy, Debug, PartialEq, Eq)]
pub enum Direction {
    None,
    /// Received, `?`.
    In,
    /// Sent, `!`.
    Out,
}

pub const MARKS: [u8; 2] = *b"?!";

impl Direction {
    pub fn of(name: &[u8]) -> Direction {
        match name.last() {
            Some(b'?') => Direction::In,
            Some(b'!') => Direction::Out,
            _ => Direction::None,
        }
    }
}

/// Ordered as the lines of a table: by (from, label, to).
#[derive(Clone, Copy, Debug, PartialEq, Eq, PartialOrd, Ord, Hash)]
pub struct Step {
    pub from: u8,
    pub label: u8,
    pub to: u8,
}

#[derive(Clone, Debug, PartialEq, Eq)]
pub struct Table {
    pub states: usize,
    pub start: u8,
    /// The name of label 1 first, each with its mark.
    pub names: Vec<Vec<u8>>,
    pub transitions: Vec<Step>,
}

impl Table {
    pub fn read(text: &[u8]) -> Result<Table, Refusal> {
        let mut lines = Lines { unread: text, number: 0 };
        let [states, labels, transitions, start] = lines.take(columns::read_line::<4>)?;
        lines.range(
            (1..=MAX_STATES as u32).contains(&states)
                && labels <= MAX_LABELS as u32
                && transitions <= MAX_TRANSITIONS as u32
                && start < states,
        )?;
        let mut table = Table {
            states: states as usize,
            start: start as u8,
            names: Vec::with_capacity(labels as usize),
            transitions: Vec::with_capacity(transitions as usize),
        };
        for _ in 0..labels {
            table.read_name(&mut lines)?;
        }
        for _ in 0..transitions {
            table.read_transition(&mut lines)?;
        }
        lines.nothing_follows()?;
        Ok(table)
    }

    fn read_name(&mut self, lines: &mut Lines) -> Result<(), Refusal> {
        let (number, name) = lines.take(name_line)?;
        lines.range(number as usize == self.names.len() + 1)?;
        if self.label(&name).is_some() {
            return Err(Refusal::NameUsed(lines.number));
        }
        self.names.push(name);
        Ok(())
    }

    fn read_transition(&mut self, lines: &mut Lines) -> Result<(), Refusal> {
        let [from, label, to] = lines.take(columns::read_line::<3>)?;
        lines.range(
            (from as usize) < self.states
                && label as usize <= self.names.len()
                && (to as usize) < self.states,
        )?;
        let step = Step { from: from as u8, label: label as u8, to: to as u8 };
        if self.transitions.last().is_some_and(|last| step <= *last) {
            return Err(Refusal::NotAbove(lines.number));
        }
        self.transitions.push(step);
        Ok(())
    }

    /// The one text of this table.
    pub fn text(&self) -> Vec<u8> {
        let mut text = Vec::new();
        let counts = [self.states, self.names.len(), self.transitions.len()];
        let [states, labels, transitions] = counts.map(|count| count as u64);
        columns::write_line(&[states, labels, transitions, self.start.into()], &mut text);
        for (name, number) in self.names.iter().zip(1..) {
            columns::write(number, &mut text);
            text.push(b' ');
            text.extend_from_slice(name);
            text.push(b'\n');
        }
        for step in &self.transitions {
            columns::write_line(&[step.from, step.label, step.to].map(u64::from), &mut text);
        }
        text
    }

    pub fn labels(&self) -> usize {
        self.names.len()
    }

    pub fn label(&self, name: &[u8]) -> Option<u8> {
        let index = self.names.iter().position(|known| known == name)?;
        Some(index as u8 + 1)
    }

    /// The labels whose names have this direction, in turn.
    pub fn going(&self, direction: Direction) -> impl Iterator<Item = u8> {
        let numbered = self.names.iter().zip(1..);
        let going = numbered.filter(move |(name, _)| Direction::of(name) == direction);
        going.map(|(_, label)| label)
    }

    /// The steps that leave each state, idle steps included.
    pub fn steps(&self) -> Steps {
        let mut from = vec![Vec::new(); self.states];
        for step in &self.transitions {
            from[step.from as usize].push(*step);
        }
        for (state, steps) in from.iter_mut().enumerate() {
            if steps.is_empty() {
                let state = state as u8;
                steps.push(Step { from: state, label: IDLE, to: state });
            }
        }
        Steps { from }
    }
}

pub struct Steps {
    from: Vec<Vec<Step>>,
}

impl Steps {
    pub fn from(&self, state: u8) -> &[Step] {
        &self.from[state as usize]
    }

    pub fn states(&self) -> usize {
        self.from.len()
    }
}

/// A stem and, beyond it, one mark or none.
pub fn is_name(bytes: &[u8]) -> bool {
    let stem = match bytes {
        [stem @ .., b'?' | b'!'] => stem,
        _ => bytes,
    };
    stem.len() <= MAX_STEM
        && stem.first().is_some_and(u8::is_ascii_lowercase)
        && stem.iter().all(|&byte| is_name_byte(byte))
}

/// Of a name's stem.
pub fn is_name_byte(byte: u8) -> bool {
    byte.is_ascii_lowercase() || byte.is_ascii_digit() || byte == b'_'
}

fn name_line(line: &[u8]) -> Option<(u32, Vec<u8>)> {
    let (number, name) = line.split_at_checked(COLUMNS)?;
    let name = name.strip_prefix(b" ").filter(|name| is_name(name))?;
    Some((columns::read(number)?, name.to_vec()))
}

struct Lines<'a> {
    unread: &'a [u8],
    /// Of the line taken last, from 1.
    number: usize,
}

impl Lines<'_> {
    fn take<Laid>(&mut self, layout: impl Fn(&[u8]) -> Option<Laid>) -> Result<Laid, Refusal> {
        self.number += 1;
        let not_laid_out = Refusal::Layout(self.number);
        let end = self.unread.iter().position(|&byte| byte == b'\n');
        let end = end.ok_or(not_laid_out)?;
        let laid = layout(&self.unread[..end]).ok_or(not_laid_out)?;
        self.unread = &self.unread[end + 1..];
        Ok(laid)
    }

    fn range(&self, inside: bool) -> Result<(), Refusal> {
        inside.then_some(()).ok_or(Refusal::Range(self.number))
    }

    fn nothing_follows(&self) -> Result<(), Refusal> {
        match self.unread {
            [] => Ok(()),
            _ => Err(Refusal::Layout(self.number + 1)),
        }
    }
}
