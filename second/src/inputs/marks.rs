//! The marks of names, as they may be damaged in a table's line or in a formula, and the operands of
//! a direction.

use super::formulas::{absent_name, is_name, small_tokens, spaced};
use super::rng::Rng;
use super::tables::{marked, name, with_labels};
use crate::table::{Direction, MARKS, MAX_STEM, Table};

/// Of a name.
pub type Damage = fn(&mut Rng, &mut Vec<u8>);

/// By the same one or the other.
pub fn double(rng: &mut Rng, name: &mut Vec<u8>) {
    name.push(rng.pick(&MARKS));
}

/// Blanks come before it.
pub fn separate(rng: &mut Rng, name: &mut Vec<u8>) {
    let at = name.len() - 1;
    name.splice(at..at, std::iter::repeat_n(b' ', rng.between(1, 3)));
}

/// The name before it is gone.
pub fn leave_alone(_: &mut Rng, name: &mut Vec<u8>) {
    name.drain(..name.len() - 1);
}

/// Thirteen letters come before it, or a few more.
pub fn lengthen(rng: &mut Rng, name: &mut Vec<u8>) {
    let at = name.len() - 1;
    let more = MAX_STEM + rng.pick(&[1, 1, 2, 5]) - at;
    name.splice(at..at, std::iter::repeat_n(rng.pick(b"az0_"), more));
}

pub fn exchange(_: &mut Rng, name: &mut Vec<u8>) {
    if let Some(mark) = name.pop() {
        name.push(other(mark));
    }
}

pub fn remove(_: &mut Rng, name: &mut Vec<u8>) {
    name.pop();
}

fn other(mark: u8) -> u8 {
    MARKS[usize::from(mark == MARKS[0])]
}

fn has_mark(name: &[u8]) -> bool {
    Direction::of(name) != Direction::None
}

/// The table's text with the mark of some name damaged so.
pub fn in_table(rng: &mut Rng, table: &Table, damage: Damage) -> Vec<u8> {
    let mut table = with_labels(rng, table, 1);
    let label = match rng.some(table.labels(), |label| has_mark(&table.names[label])) {
        Some(label) => label,
        None => {
            let label = rng.below(table.labels());
            table.names[label].push(rng.pick(&MARKS));
            label
        }
    };
    damage(rng, &mut table.names[label]);
    table.text()
}

/// The table's text with one more mark, behind a name that has one or none.
pub fn added_in_table(rng: &mut Rng, table: &Table) -> Vec<u8> {
    let mut table = with_labels(rng, table, 1);
    let label = rng.below(table.labels());
    table.names[label].push(rng.pick(&MARKS));
    table.text()
}

/// A formula's text with the mark of some name damaged so.
pub fn in_formula(rng: &mut Rng, table: &Table, damage: Damage) -> Vec<u8> {
    let is_fit = |token: &[u8]| is_name(token) && has_mark(token);
    let (mut tokens, at) = with_name(rng, table, is_fit, |rng, table| {
        let known = rng.some(table.labels(), |label| has_mark(&table.names[label]));
        known.map_or_else(
            || marked(stem(rng, table), rng.pick(&MARKS)),
            |label| table.names[label].clone(),
        )
    });
    damage(rng, &mut tokens[at]);
    tokens.concat()
}

/// A formula's text with one more mark, behind a name that has one or none.
pub fn added_in_formula(rng: &mut Rng, table: &Table) -> Vec<u8> {
    let (mut tokens, at) = with_name(rng, table, is_name, stem);
    tokens[at].push(rng.pick(&MARKS));
    tokens.concat()
}

/// A formula's text with a name of some stem of the table that the table has with another mark or
/// none only; if it has all three, with a name that it lacks.
pub fn unknown_by_mark(rng: &mut Rng, table: &Table) -> Vec<u8> {
    let (mut tokens, at) = with_name(rng, table, is_name, stem);
    let stem = stem(rng, table);
    let others = [stem.clone(), marked(stem.clone(), MARKS[0]), marked(stem, MARKS[1])];
    let lacking = rng.some(others.len(), |which| !table.names.contains(&others[which]));
    tokens[at] = match lacking {
        Some(which) => others[which].clone(),
        None => absent_name(rng),
    };
    tokens.concat()
}

/// The stem of some name of the table, or any if it has none.
fn stem(rng: &mut Rng, table: &Table) -> Vec<u8> {
    let Some(label) = rng.some(table.labels(), |_| true) else {
        return name(rng, MAX_STEM);
    };
    let mut stem = table.names[label].clone();
    if has_mark(&stem) {
        stem.pop();
    }
    stem
}

/// The tokens of a formula, and the place of some name that fits among them; if it has none, those of
/// another that has.
fn with_name(
    rng: &mut Rng,
    table: &Table,
    is_fit: impl Fn(&[u8]) -> bool,
    put: fn(&mut Rng, &Table) -> Vec<u8>,
) -> (Vec<Vec<u8>>, usize) {
    let tokens = small_tokens(rng, table, 9);
    match rng.some(tokens.len(), |at| is_fit(&tokens[at])) {
        Some(at) => (tokens, at),
        None => (until(vec![put(rng, table)]), 2),
    }
}

/// Of a set of these tokens.
fn until(set: Vec<Vec<u8>>) -> Vec<Vec<u8>> {
    let [keyword, open, close, arm] = ["EU", "[", "]", "T"].map(|token| vec![token.into()]);
    [keyword, open, set, close, arm].concat()
}

/// A formula's text with operands of a direction.
pub fn directed(rng: &mut Rng, table: &Table) -> Vec<u8> {
    let tokens = directed_tokens(rng, table);
    spaced(rng, &tokens)
}

/// A formula's tokens, some of whose names and `*` have become operands of a direction, alone, below
/// `~`, in brackets and beside others.
fn directed_tokens(rng: &mut Rng, table: &Table) -> Vec<Vec<u8>> {
    let is_operand = |token: &[u8]| is_name(token) || token == b"*";
    let mut tokens = Vec::new();
    for token in small_tokens(rng, table, 9) {
        match is_operand(&token) && rng.one_in(2) {
            true => operand(rng, table, 3, &mut tokens),
            false => tokens.push(token),
        }
    }
    let is_directed = |token: &Vec<u8>| MARKS.map(|mark| vec![mark]).contains(token);
    if tokens.iter().any(is_directed) {
        return tokens;
    }
    let mut set = Vec::new();
    operand(rng, table, 3, &mut set);
    set.extend([b"|".to_vec(), vec![rng.pick(&MARKS)]]);
    until(set)
}

/// Of at most so many turns.
fn operand(rng: &mut Rng, table: &Table, turns: usize, tokens: &mut Vec<Vec<u8>>) {
    match rng.below(8) {
        0 | 1 if turns > 0 => {
            tokens.push(b"~".to_vec());
            operand(rng, table, turns - 1, tokens);
        }
        2 | 3 if turns > 0 => {
            tokens.push(b"(".to_vec());
            operand(rng, table, turns - 1, tokens);
            for _ in 0..rng.below(3) {
                tokens.push(b"|".to_vec());
                operand(rng, table, turns - 1, tokens);
            }
            tokens.push(b")".to_vec());
        }
        4 if table.labels() > 0 => tokens.push(table.names[rng.below(table.labels())].clone()),
        _ => tokens.push(vec![rng.pick(&MARKS)]),
    }
}
