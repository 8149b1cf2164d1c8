//! The verdict at each of several states, as if the table started there: what the program
//! `print_verdicts` prints, from its two files and its list of states.

use crate::columns;
use crate::formula::Formula;
use crate::print;
use crate::reply::Refusal;
use crate::table::Table;
use crate::verdict::holds;

/// The most digits of a state as it is typed.
const DIGITS: usize = 6;

/// What `print_verdicts` prints of these files and this list, a number in six columns each.
pub fn printed(table: &[u8], formula: &[u8], list: &[u8]) -> Vec<u8> {
    let outcome = verdicts(table, formula, list);
    outcome.map_or_else(|refused| print::refusal(refused.into()), |verdicts| text(&verdicts))
}

/// The listed states, each with its verdict.
pub fn verdicts(table: &[u8], formula: &[u8], list: &[u8]) -> Result<Vec<(u8, bool)>, Refusal> {
    let mut table = Table::read(table)?;
    let formula = Formula::read(&table, print::line_of(formula))?;
    let states = rising(list, table.states)?.into_iter();
    let verdict = |state| {
        table.start = state;
        (state, holds(&table, &formula))
    };
    Ok(states.map(verdict).collect())
}

/// Refusal 16: each state is one of the table's, and above the one before it.
fn rising(list: &[u8], states: usize) -> Result<Vec<u8>, Refusal> {
    let mut rising: Vec<u8> = Vec::new();
    for (index, entry) in list.chunks(columns::COLUMNS).enumerate() {
        let state = columns::read(entry).filter(|&state| (state as usize) < states);
        let state = state.map(|state| state as u8);
        let is_above = |state: &u8| rising.last().is_none_or(|last| state > last);
        rising.push(state.filter(is_above).ok_or(Refusal::Start(index))?);
    }
    Ok(rising)
}

/// Whether it holds at all of them and how many they are, then each.
pub fn text(verdicts: &[(u8, bool)]) -> Vec<u8> {
    let mut text = Vec::new();
    let all = verdicts.iter().all(|&(_, verdict)| verdict);
    columns::write_line(&[all.into(), verdicts.len() as u64], &mut text);
    for &(state, verdict) in verdicts {
        columns::write_line(&[state.into(), verdict.into()], &mut text);
    }
    text
}

/// A list as it is typed, with blanks between its numbers, in columns; none if it is no list.
pub fn in_columns(typed: &str) -> Option<Vec<u8>> {
    let mut list = Vec::new();
    for number in typed.split(' ').filter(|number| !number.is_empty()) {
        let is_number = number.len() <= DIGITS && number.bytes().all(|byte| byte.is_ascii_digit());
        columns::write(number.parse().ok().filter(|_| is_number)?, &mut list);
    }
    Some(list)
}
