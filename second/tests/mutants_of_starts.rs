//! Explainers that are wrong in one thing about listed states. The gate's inputs find each of them.

mod common;

use common::found::all_are_found;
use second::baseline::{verdict, verdicts};
use second::entries::{Entries, NONE, Verdicts};
use second::prepared::{FORMULA_LENGTH, TABLE_LENGTH};
use second::reply::Reply;
use second::table::MAX_STATES;

fn wrong(name: &'static str, entry: Verdicts) -> (&'static str, Entries) {
    (name, Entries { verdicts: Some(entry), ..NONE })
}

/// By state, 1 where the formula holds, of what is prepared; of a state that there is not, 0.
fn by_state(table: &[u8], formula: &[u8]) -> [u8; MAX_STATES] {
    let mut answers = [0; MAX_STATES];
    let starts: Vec<u8> = (0..states(table)).map(|state| state as u8).collect();
    let reply = verdicts(table, formula, &starts, &mut answers);
    assert_eq!(reply.number, 0, "what is prepared is asked at all of its states");
    answers
}

fn states(table: &[u8]) -> usize {
    u16::from_le_bytes([table[0], table[1]]).into()
}

/// What an accepted call writes and answers.
struct Call<'a> {
    by_state: [u8; MAX_STATES],
    at_start: u8,
    starts: &'a [u8],
    answers: &'a mut [u8],
    figure: u64,
}

/// With the right answers become others; refusals are right.
fn answered(
    table: &[u8],
    formula: &[u8],
    starts: &[u8],
    answers: &mut [u8],
    change: fn(&mut Call),
) -> Reply {
    let reply = verdicts(table, formula, starts, answers);
    if reply.number != 0 {
        return reply;
    }
    let mut call = Call {
        by_state: by_state(table, formula),
        at_start: verdict(table, formula).figure as u8,
        starts,
        answers,
        figure: reply.figure,
    };
    change(&mut call);
    Reply::accepted(call.figure)
}

/// By what becomes of an accepted call.
macro_rules! answers {
    ($($name:literal: $change:expr,)*) => {
        all_are_found(&[$(wrong($name, |table, formula, starts, answers| {
            answered(table, formula, starts, answers, $change)
        })),*])
    };
}

impl Call<'_> {
    /// Each answer by its index, its state and the right answer.
    fn each(&mut self, answer: impl Fn(usize, u8, u8) -> u8) {
        for (index, &state) in self.starts.iter().enumerate() {
            self.answers[index] = answer(index, state, self.by_state[usize::from(state)]);
        }
    }

    /// The joint answer by those that were written.
    fn join(&mut self) {
        self.figure = self.answers[..self.starts.len()].iter().all(|&answer| answer == 1).into();
    }
}

#[test]
fn faults_in_the_joint_answer_are_found() {
    answers! {
        "that of no state is 0": |call| {
            call.figure &= u64::from(!call.starts.is_empty());
        },
        "that of the first state": |call| {
            call.figure = call.starts.first().map_or(1, |_| call.answers[0].into());
        },
        "that of the last state": |call| {
            call.figure = call.starts.last().map_or(1, |_| call.answers[call.starts.len() - 1].into());
        },
        "1 if it holds at any": |call| {
            call.figure = call.answers[..call.starts.len()].contains(&1).into();
        },
        "1 if it holds at any, or none is listed": |call| {
            call.figure = call.answers[..call.starts.len()].contains(&1).into();
            call.figure |= u64::from(call.starts.is_empty());
        },
        "the count of states where it holds": |call| {
            let holds = call.answers[..call.starts.len()].iter().filter(|&&answer| answer == 1);
            call.figure = holds.count() as u64;
        },
        "that of the table's start": |call| call.figure = call.at_start.into(),
        "that of the table's start, if none is listed": |call| {
            if call.starts.is_empty() {
                call.figure = call.at_start.into();
            }
        },
        "that of the table's start, with the listed ones": |call| {
            call.figure &= u64::from(call.at_start);
        },
        "that of all states of the table": |call| {
            call.figure &= u64::from(!call.by_state.contains(&0));
        },
        "that of the first 255": |call| {
            let listed = call.starts.len().min(255);
            call.figure = call.answers[..listed].iter().all(|&answer| answer == 1).into();
        },
        "the first answer and the last": |call| {
            if let [_, .., _] = call.starts {
                call.figure = (call.answers[0] & call.answers[call.starts.len() - 1]).into();
            }
        },
        "0 if it holds": |call| call.figure = 1 - call.figure,
    }
}

#[test]
fn faults_in_the_answers_are_found() {
    answers! {
        "the table's start is asked": |call| {
            let at_start = call.at_start;
            call.each(|_, _, _| at_start);
            call.join();
        },
        "the table's start is asked at first": |call| {
            let at_start = call.at_start;
            call.each(|index, _, answer| if index == 0 { at_start } else { answer });
            call.join();
        },
        "the index is asked": |call| {
            let by_state = call.by_state;
            call.each(|index, _, _| by_state[index]);
            call.join();
        },
        "the next state is asked": |call| {
            let by_state = call.by_state;
            call.each(|_, state, _| by_state[usize::from(state.wrapping_add(1))]);
            call.join();
        },
        "the state is asked by its low seven bits": |call| {
            let by_state = call.by_state;
            call.each(|_, state, _| by_state[usize::from(state & 127)]);
            call.join();
        },
        "the state is asked by its low six bits": |call| {
            let by_state = call.by_state;
            call.each(|_, state, _| by_state[usize::from(state & 63)]);
            call.join();
        },
        "it never holds at state 255": |call| {
            call.each(|_, state, answer| answer & u8::from(state < u8::MAX));
            call.join();
        },
        "it always holds at state 0": |call| {
            call.each(|_, state, answer| answer | u8::from(state == 0));
            call.join();
        },
        "each is that of the state before, too": |call| {
            let (by_state, starts) = (call.by_state, call.starts);
            call.each(|index, _, answer| match index {
                0 => answer,
                _ => answer & by_state[usize::from(starts[index - 1])],
            });
        },
        "255 where it holds": |call| call.each(|_, _, answer| answer * u8::MAX),
        "0 where it holds, 1 where not": |call| call.each(|_, _, answer| 1 - answer),
        "2 where it does not hold": |call| call.each(|_, _, answer| 2 - answer),
    }
}

/// What stood in the buffer, for a call that keeps some of it.
macro_rules! places {
    ($($name:literal: $change:expr,)*) => {
        all_are_found(&[$(wrong($name, |table, formula, starts, answers| {
            let before = answers.to_vec();
            let reply = verdicts(table, formula, starts, answers);
            let change: fn(&[u8], &[u8], &mut [u8]) = $change;
            if reply.number == 0 {
                change(&before, starts, answers);
            }
            reply
        })),*])
    };
}

#[test]
fn faults_in_where_answers_stand_are_found() {
    places! {
        "at the state": |before, starts, answers| {
            let right = answers.to_vec();
            answers.copy_from_slice(before);
            starts.iter().zip(right).for_each(|(&state, answer)| answers[usize::from(state)] = answer);
        },
        "one place further": |before, starts, answers| {
            let right = answers.to_vec();
            answers.copy_from_slice(before);
            let listed = starts.len().min(answers.len() - 1);
            answers[1..=listed].copy_from_slice(&right[..listed]);
        },
        "from the last to the first": |_, starts, answers| answers[..starts.len()].reverse(),
        "at the end of what is lent": |before, starts, answers| {
            let right = answers[..starts.len()].to_vec();
            answers.copy_from_slice(before);
            let first = answers.len() - starts.len();
            answers[first..].copy_from_slice(&right);
        },
        "0 behind the last": |_, starts, answers| {
            if let Some(byte) = answers.get_mut(starts.len()) {
                *byte = 0;
            }
        },
        "1 behind the last": |_, starts, answers| {
            if let Some(byte) = answers.get_mut(starts.len()) {
                *byte = 1;
            }
        },
        "0 at the first, if none is listed": |_, starts, answers| {
            if starts.is_empty() {
                answers[0] = 0;
            }
        },
        "256 bytes are written": |_, starts, answers| answers[starts.len()..MAX_STATES].fill(0),
        "all that is lent is written": |_, starts, answers| answers[starts.len()..].fill(0),
        "the byte behind 256 is cleared": |_, _, answers| {
            if let Some(byte) = answers.get_mut(MAX_STATES) {
                *byte = 0;
            }
        },
        "the last is not written": |before, starts, answers| {
            if let Some(last) = starts.len().checked_sub(1) {
                answers[last] = before[last];
            }
        },
        "the last of 256 is not written": |before, starts, answers| {
            if starts.len() == MAX_STATES {
                answers[255] = before[255];
            }
        },
        "the first is not written": |before, _, answers| answers[0] = before[0],
        "those behind the first 0 are not written": |before, starts, answers| {
            if let Some(index) = answers[..starts.len()].iter().position(|&answer| answer == 0) {
                answers[index + 1..].copy_from_slice(&before[index + 1..]);
            }
        },
        "only those that hold are written": |before, starts, answers| {
            for index in (0..starts.len()).filter(|&index| before[index] != 1) {
                answers[index] = if answers[index] == 1 { 1 } else { before[index] };
            }
        },
        "none is written": |before, _, answers| answers.copy_from_slice(before),
    }
}

/// The index of a list's first wrong entry over so many states, or what is taken for it.
type Check = fn(&[u8], usize) -> Option<usize>;

fn first_wrong(starts: &[u8], states: usize) -> Option<usize> {
    first(starts, |index| {
        usize::from(starts[index]) < states && (index == 0 || starts[index - 1] < starts[index])
    })
}

fn first(starts: &[u8], is_right: impl Fn(usize) -> bool) -> Option<usize> {
    (0..starts.len()).find(|&index| !is_right(index))
}

/// The list is held against another rule; refusals 14 and 10 are right.
fn checked(table: &[u8], formula: &[u8], starts: &[u8], answers: &mut [u8], check: Check) -> Reply {
    let unlisted = verdicts(table, formula, &[], answers);
    if unlisted.number != 0 {
        return unlisted;
    }
    if let Some(index) = check(starts, states(table)) {
        return Reply { number: 16, figure: index as u64 };
    }
    let by_state = by_state(table, formula);
    let mut all = 1;
    for (answer, &state) in answers[..MAX_STATES].iter_mut().zip(starts) {
        *answer = by_state[usize::from(state)];
        all &= *answer;
    }
    Reply::accepted(all.into())
}

/// By the rule for lists.
macro_rules! checks {
    ($($name:literal: $check:expr,)*) => {
        all_are_found(&[$(wrong($name, |table, formula, starts, answers| {
            checked(table, formula, starts, answers, $check)
        })),*])
    };
}

#[test]
fn faults_in_the_order_of_listed_states_are_found() {
    checks! {
        "equal neighbours are taken": |starts, states| {
            first(starts, |index| {
                let rises = index == 0 || starts[index - 1] <= starts[index];
                rises && usize::from(starts[index]) < states
            })
        },
        "a lower neighbour is taken, an equal one not": |starts, states| {
            first(starts, |index| {
                let differs = index == 0 || starts[index - 1] != starts[index];
                differs && usize::from(starts[index]) < states
            })
        },
        "any order is taken": |starts, states| {
            first(starts, |index| usize::from(starts[index]) < states)
        },
        "each is held against the first only": |starts, states| {
            first(starts, |index| {
                let rises = index == 0 || starts[0] < starts[index];
                rises && usize::from(starts[index]) < states
            })
        },
        "only the first two are held against each other": |starts, states| {
            first(starts, |index| {
                let rises = index != 1 || starts[0] < starts[1];
                rises && usize::from(starts[index]) < states
            })
        },
        "the last is not held against the one before it": |starts, states| {
            first(starts, |index| {
                let is_between = 0 < index && index + 1 < starts.len();
                let rises = !is_between || starts[index - 1] < starts[index];
                rises && usize::from(starts[index]) < states
            })
        },
        "the first must be above 0": |starts, states| {
            first(starts, |index| {
                let before = if index == 0 { 0 } else { starts[index - 1] };
                before < starts[index] && usize::from(starts[index]) < states
            })
        },
        "states are held against each other as signed bytes": |starts, states| {
            first(starts, |index| {
                let rises = index == 0 || starts[index - 1].cast_signed() < starts[index].cast_signed();
                rises && usize::from(starts[index]) < states
            })
        },
        "they must follow on each other": |starts, states| {
            first(starts, |index| {
                let follows = index == 0 || starts[index - 1].checked_add(1) == Some(starts[index]);
                follows && usize::from(starts[index]) < states
            })
        },
        "255 may be followed": |starts, states| {
            first(starts, |index| {
                let rises = index == 0 || starts[index - 1].wrapping_add(1) <= starts[index];
                rises && usize::from(starts[index]) < states
            })
        },
    }
}

#[test]
fn faults_in_which_states_a_table_has_are_found() {
    checks! {
        "the count of states is taken": |starts, states| first_wrong(starts, states + 1),
        "any state is taken": |starts, _| first_wrong(starts, MAX_STATES),
        "any state but 255 is taken": |starts, states| match states {
            MAX_STATES => first_wrong(starts, states),
            _ => first_wrong(starts, MAX_STATES - 1),
        },
        "the last state is not taken": |starts, states| first_wrong(starts, states - 1),
        "state 255 is not taken": |starts, states| first_wrong(starts, states.min(255)),
        "the low byte of the count is taken for it": |starts, states| first_wrong(starts, states % 256),
        "states are numbered from 1": |starts, states| {
            first(starts, |index| {
                let rises = index == 0 || starts[index - 1] < starts[index];
                rises && starts[index] > 0 && usize::from(starts[index]) <= states
            })
        },
        "only the first is held against the count": |starts, states| {
            first(starts, |index| match index {
                0 => usize::from(starts[0]) < states,
                _ => starts[index - 1] < starts[index],
            })
        },
        "only the last is held against the count, and told": |starts, states| {
            let last = starts.len().checked_sub(1);
            first_wrong(starts, MAX_STATES)
                .or(last.filter(|&last| usize::from(starts[last]) >= states))
        },
        "the first is not held against the count": |starts, states| {
            first(starts, |index| match index {
                0 => true,
                _ => starts[index - 1] < starts[index] && usize::from(starts[index]) < states,
            })
        },
    }
}

#[test]
fn faults_in_the_index_that_is_told_are_found() {
    checks! {
        "one more": |starts, states| Some(first_wrong(starts, states)? + 1),
        "one less": |starts, states| Some(first_wrong(starts, states)?.saturating_sub(1)),
        "the state in place of its index": |starts, states| {
            Some(starts[first_wrong(starts, states)?].into())
        },
        "the last that is wrong": |starts, states| {
            (0..starts.len()).rev().find(|&index| {
                let rises = index == 0 || starts[index - 1] < starts[index];
                !rises || usize::from(starts[index]) >= states
            })
        },
        "the first that is not above the one before it, then the first that there is not":
            |starts, states| first_wrong(starts, MAX_STATES).or(first_wrong(starts, states)),
        "the first that there is not, then the first that is not above the one before it":
            |starts, states| {
                let lacking = first(starts, |index| usize::from(starts[index]) < states);
                lacking.or(first_wrong(starts, states))
            },
        "the low byte of it": |starts, states| Some(first_wrong(starts, states)? % 256),
        "that of the first of two equal ones": |starts, states| {
            let index = first_wrong(starts, states)?;
            match index > 0 && starts[index - 1] == starts[index] {
                true => Some(index - 1),
                false => Some(index),
            }
        },
        "0": |starts, states| first_wrong(starts, states).map(|_| 0),
        "the length of the list": |starts, states| first_wrong(starts, states).map(|_| starts.len()),
    }
}

#[test]
fn faults_in_the_length_of_lists_are_found() {
    checks! {
        "over 256 the length is told": |starts, states| match starts.len() {
            0..=256 => first_wrong(starts, states),
            length => Some(length),
        },
        "over 256 the index is 256": |starts, states| match starts.len() {
            0..=256 => first_wrong(starts, states),
            _ => Some(256),
        },
        "over 256 the index is the last": |starts, states| match starts.len() {
            0..=256 => first_wrong(starts, states),
            length => Some(length - 1),
        },
        "256 are too many": |starts, states| match starts.len() {
            0..=255 => first_wrong(starts, states),
            _ => Some(first_wrong(&starts[..256], states).unwrap_or(255)),
        },
        "257 are taken, the last of them not looked at": |starts, states| match starts.len() {
            257 => first_wrong(&starts[..256], states),
            _ => first_wrong(starts, states),
        },
        "what stands past 256 is not looked at": |starts, states| {
            first_wrong(&starts[..starts.len().min(256)], states)
        },
        "what stands past 255 is not looked at": |starts, states| {
            first_wrong(&starts[..starts.len().min(255)], states)
        },
        "as many as the table has states are looked at": |starts, states| {
            first_wrong(&starts[..starts.len().min(states)], states)
        },
    }
    all_are_found(&[
        wrong("a list is cut at 255", |table, formula, starts, answers| {
            verdicts(table, formula, &starts[..starts.len().min(255)], answers)
        }),
        wrong("a list is cut at 256", |table, formula, starts, answers| {
            verdicts(table, formula, &starts[..starts.len().min(256)], answers)
        }),
        wrong("the low byte of its length is taken for it", |table, formula, starts, answers| {
            verdicts(table, formula, &starts[..starts.len() % 256], answers)
        }),
        wrong("the low two bytes of its length", |table, formula, starts, answers| {
            verdicts(table, formula, &starts[..starts.len() % 65_536], answers)
        }),
        wrong("the last of a list is not looked at", |table, formula, starts, answers| {
            verdicts(table, formula, &starts[..starts.len().saturating_sub(1)], answers)
        }),
        wrong("no list may be empty", |table, formula, starts, answers| {
            match verdicts(table, formula, starts, answers) {
                Reply { number: 0, .. } if starts.is_empty() => Reply { number: 16, figure: 0 },
                reply => reply,
            }
        }),
    ]);
}

fn are_long(table: &[u8], formula: &[u8]) -> bool {
    table.len() >= TABLE_LENGTH && formula.len() >= FORMULA_LENGTH
}

/// What is answered if 256 bytes are lent.
fn with_enough(table: &[u8], formula: &[u8], starts: &[u8]) -> Reply {
    verdicts(table, formula, starts, &mut [0; MAX_STATES])
}

#[test]
fn faults_in_the_order_of_refusals_are_found() {
    const SHORT: Reply = Reply { number: 14, figure: 256 };
    all_are_found(&[
        wrong("16 comes before 10", |table, formula, starts, answers| {
            match verdicts(table, formula, starts, answers) {
                reply @ Reply { number: 10, .. } => match first_wrong(starts, states(table)) {
                    Some(index) => Reply { number: 16, figure: index as u64 },
                    None => reply,
                },
                reply => reply,
            }
        }),
        wrong(
            "16 of the order comes before 10 of the formula",
            |table, formula, starts, answers| match verdicts(table, formula, starts, answers) {
                reply @ Reply { number: 10, figure: 1 } => match first_wrong(starts, MAX_STATES) {
                    Some(index) => Reply { number: 16, figure: index as u64 },
                    None => reply,
                },
                reply => reply,
            },
        ),
        wrong("16 comes before 14 of the answers", |table, formula, starts, answers| {
            let whole = with_enough(table, formula, starts);
            match whole.number {
                16 => whole,
                _ => verdicts(table, formula, starts, answers),
            }
        }),
        wrong("10 comes before 14 of the answers", |table, formula, starts, answers| {
            let whole = with_enough(table, formula, starts);
            match whole.number {
                10 => whole,
                _ => verdicts(table, formula, starts, answers),
            }
        }),
        wrong(
            "10 of the table comes before it",
            |table, formula, starts, answers| match with_enough(table, formula, starts) {
                whole @ Reply { number: 10, figure: 0 } => whole,
                _ => verdicts(table, formula, starts, answers),
            },
        ),
        wrong("14 of the answers before 14 of the formula", |table, formula, starts, answers| {
            match answers.len() < MAX_STATES && table.len() >= TABLE_LENGTH {
                true => SHORT,
                false => verdicts(table, formula, starts, answers),
            }
        }),
        wrong("14 of the answers before 14 of the table", |table, formula, starts, answers| {
            match answers.len() < MAX_STATES {
                true => SHORT,
                false => verdicts(table, formula, starts, answers),
            }
        }),
        wrong("10 does not tell the formula from the table", |table, formula, starts, answers| {
            match verdicts(table, formula, starts, answers) {
                Reply { number: 10, .. } => Reply { number: 10, figure: 0 },
                reply => reply,
            }
        }),
        wrong(
            "nothing is refused if none is listed",
            |table, formula, starts, answers| match starts.is_empty()
                && are_long(table, formula)
                && answers.len() >= MAX_STATES
            {
                true => Reply::accepted(1),
                false => verdicts(table, formula, starts, answers),
            },
        ),
        wrong("the table's start is not looked at", |table, formula, starts, answers| {
            let mut table = table.to_vec();
            if let Some(start) = table.get_mut(5) {
                *start = 0;
            }
            verdicts(&table, formula, starts, answers)
        }),
        wrong(
            "the table's start must be listed",
            |table, formula, starts, answers| match verdicts(
                table,
                formula,
                starts,
                &mut answers.to_vec(),
            ) {
                Reply { number: 0, .. } if !starts.contains(&table[5]) => {
                    Reply { number: 16, figure: starts.len() as u64 }
                }
                _ => verdicts(table, formula, starts, answers),
            },
        ),
    ]);
}

#[test]
fn faults_in_what_is_lent_for_answers_are_found() {
    /// Lends more than the caller did, and hands back as much as fits.
    fn longer(table: &[u8], formula: &[u8], starts: &[u8], answers: &mut [u8]) -> Reply {
        let mut lent = answers.to_vec();
        lent.resize(answers.len().max(MAX_STATES), 0);
        let reply = verdicts(table, formula, starts, &mut lent);
        answers.copy_from_slice(&lent[..answers.len()]);
        reply
    }
    all_are_found(&[
        wrong("255 bytes are enough", |table, formula, starts, answers| match answers.len() {
            255 => longer(table, formula, starts, answers),
            _ => verdicts(table, formula, starts, answers),
        }),
        wrong("as many as are listed are enough", |table, formula, starts, answers| {
            match answers.len() >= starts.len() {
                true => longer(table, formula, starts, answers),
                false => verdicts(table, formula, starts, answers),
            }
        }),
        wrong("as many as the table has states are enough", |table, formula, starts, answers| {
            match are_long(table, formula) && answers.len() >= states(table) {
                true => longer(table, formula, starts, answers),
                false => verdicts(table, formula, starts, answers),
            }
        }),
        wrong("none is needed if none is listed", |table, formula, starts, answers| {
            match starts.is_empty() {
                true => longer(table, formula, starts, answers),
                false => verdicts(table, formula, starts, answers),
            }
        }),
        wrong("256 are not enough", |table, formula, starts, answers| match answers.len() {
            256 if are_long(table, formula) => Reply { number: 14, figure: 257 },
            _ => verdicts(table, formula, starts, answers),
        }),
        wrong(
            "the length that is needed is that of the list",
            |table, formula, starts, answers| match verdicts(table, formula, starts, answers) {
                Reply { number: 14, figure: 256 } => {
                    Reply { number: 14, figure: starts.len() as u64 }
                }
                reply => reply,
            },
        ),
        wrong(
            "the length that is needed is the count of states",
            |table, formula, starts, answers| match verdicts(table, formula, starts, answers) {
                Reply { number: 14, figure: 256 } => {
                    Reply { number: 14, figure: states(table) as u64 }
                }
                reply => reply,
            },
        ),
        wrong(
            "the length that is needed is that of a formula",
            |table, formula, starts, answers| match verdicts(table, formula, starts, answers) {
                Reply { number: 14, figure: 256 } => Reply { number: 14, figure: 681 },
                reply => reply,
            },
        ),
    ]);
}

#[test]
fn answers_written_on_a_refusal_are_found() {
    all_are_found(&[
        wrong("those before the wrong entry", |table, formula, starts, answers| {
            let reply = verdicts(table, formula, starts, answers);
            if reply.number == 16 {
                verdicts(table, formula, &starts[..reply.figure as usize], answers);
            }
            reply
        }),
        wrong("those before the entry 256", |table, formula, starts, answers| {
            let reply = verdicts(table, formula, starts, answers);
            if let Reply { number: 16, figure: 256 } = reply {
                verdicts(table, formula, &starts[..256], answers);
            }
            reply
        }),
        wrong("0 for the wrong entry", |table, formula, starts, answers| {
            let reply = verdicts(table, formula, starts, answers);
            if let (16, Some(byte)) = (reply.number, answers.get_mut(reply.figure as usize)) {
                *byte = 0;
            }
            reply
        }),
        wrong("0 for all, before the list is looked at", |table, formula, starts, answers| {
            let reply = verdicts(table, formula, starts, answers);
            if reply.number == 16 {
                answers[..MAX_STATES].fill(0);
            }
            reply
        }),
        wrong(
            "0 for all, before what is prepared is looked at",
            |table, formula, starts, answers| {
                let reply = verdicts(table, formula, starts, answers);
                if reply.number == 10 {
                    answers[..MAX_STATES].fill(0);
                }
                reply
            },
        ),
        wrong("as many as fit", |table, formula, starts, answers| {
            let reply = verdicts(table, formula, starts, answers);
            if let Reply { number: 14, figure: 256 } = reply {
                let mut lent = [0; MAX_STATES];
                if verdicts(table, formula, starts, &mut lent).number == 0 {
                    let fit = starts.len().min(answers.len());
                    answers[..fit].copy_from_slice(&lent[..fit]);
                }
            }
            reply
        }),
        wrong("a byte of a short formula", |table, formula, starts, answers| {
            let reply = verdicts(table, formula, starts, answers);
            if let (14, 681, Some(byte)) = (reply.number, reply.figure, answers.first_mut()) {
                *byte ^= 1;
            }
            reply
        }),
    ]);
}
