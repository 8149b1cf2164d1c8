//! Idle steps that are written out as silent loops, and the other way round.

use second::table::{MAX_TRANSITIONS, SILENT, Step, Table};

pub fn has_exit(table: &Table, state: u8) -> bool {
    table.transitions.iter().any(|step| step.from == state)
}

fn states(table: &Table) -> impl Iterator<Item = u8> {
    (0..table.states).map(|state| state as u8)
}

fn silent_loop(state: u8) -> Step {
    Step { from: state, label: SILENT, to: state }
}

/// Each idle step written as a transition by this label; none if these are too many.
pub fn with_loops(table: &Table, label: u8) -> Option<Table> {
    let idle = states(table).filter(|&state| !has_exit(table, state));
    let loops = idle.map(|state| Step { label, ..silent_loop(state) });
    let mut transitions: Vec<Step> = table.transitions.iter().copied().chain(loops).collect();
    transitions.sort_unstable();
    (transitions.len() <= MAX_TRANSITIONS).then(|| Table { transitions, ..table.clone() })
}

/// Without the silent loops that are a state's only exit.
pub fn without_lone_loops(table: &Table) -> Table {
    let is_lone = |step: &Step| {
        let leaving = table.transitions.iter().filter(|other| other.from == step.from);
        *step == silent_loop(step.from) && leaving.count() == 1
    };
    let kept = table.transitions.iter().copied().filter(|step| !is_lone(step));
    Table { transitions: kept.collect(), ..table.clone() }
}

/// With each of these become another.
pub fn exchanged(word: &[u8], letter: u8, other: u8) -> Vec<u8> {
    word.iter().map(|&known| if known == letter { other } else { known }).collect()
}
