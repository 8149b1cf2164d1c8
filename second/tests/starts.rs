//! What `verdicts` answers at a listed state is what `verdict` answers for the same table with that
//! start: of the second explainer, of the baseline and of the library.

mod common;

use common::{M, ONE_STATE};
use second::baseline::BASELINE;
use second::entries::{Entries, SECOND};
use second::formula::Formula;
use second::inputs::kinds::Kinds;
use second::inputs::questions::{Question, largest, question};
use second::inputs::rng::{Rng, filled};
use second::inputs::starts::telling;
use second::link::library;
use second::prepared::{self, TABLE_LENGTH};
use second::reply::Reply;
use second::table::{MAX_STATES, Table};

/// Where the start stands in prepared bytes.
const START: usize = 5;

/// The reply, and what the listed states were answered; the rest of what is lent stays.
fn verdicts(of: &Entries, table: &[u8], formula: &[u8], starts: &[u8]) -> (Reply, Vec<u8>) {
    let before = filled(starts.len() as u64, MAX_STATES);
    let mut answers = before.clone();
    let reply = of.verdicts.expect("the entry")(table, formula, starts, &mut answers);
    assert_eq!(answers[starts.len()..], before[starts.len()..]);
    answers.truncate(starts.len());
    (reply, answers)
}

fn states(table: &Table) -> Vec<u8> {
    (0..table.states).map(|state| state as u8).collect()
}

/// At every state of the question's table, alone and beside all others.
fn each_is_the_verdict_from_there(of: &Entries, question: &Question) {
    let Question { table, formula: asked } = question;
    let formula = prepared::formula_bytes(asked);
    let bytes = prepared::table_bytes(table);
    let mut answers = Vec::new();
    for start in states(table) {
        let mut from_there = bytes.clone();
        from_there[START] = start;
        let read = Table { start, ..table.clone() };
        let mut again = vec![0; TABLE_LENGTH];
        assert_eq!(of.read_table.expect("the entry")(&read.text(), &mut again), Reply::accepted(0));
        assert_eq!(again, from_there, "with another start the bytes are prepared again");
        let verdict = of.verdict.expect("the entry")(&from_there, &formula);
        assert_eq!(verdict.number, 0);
        for table in [&bytes, &from_there] {
            let alone = verdicts(of, table, &formula, &[start]);
            assert_eq!(
                alone,
                (verdict, vec![verdict.figure as u8]),
                "{asked:?} at {start} of {table:?}"
            );
        }
        answers.push(verdict.figure as u8);
    }
    let all = Reply::accepted((!answers.contains(&0)).into());
    assert_eq!(
        verdicts(of, &bytes, &formula, &states(table)),
        (all, answers),
        "{asked:?} of {table:?}"
    );
}

fn all_agree(of: &Entries) {
    for index in 0..2_000 {
        let rng = &mut Rng::of_input(51, "starts", index);
        let question = question(rng, 200);
        each_is_the_verdict_from_there(of, &telling(rng, question));
    }
    for index in 0..3 {
        let rng = &mut Rng::of_input(52, "starts", index);
        let question = largest(rng, &mut Kinds::default());
        let question = telling(rng, question);
        assert_eq!(question.table.states, MAX_STATES);
        each_is_the_verdict_from_there(of, &question);
    }
}

#[test]
fn the_second_explainer_answers_at_a_state_as_from_it() {
    all_agree(&SECOND);
}

#[test]
fn the_baseline_answers_at_a_state_as_from_it() {
    all_agree(&BASELINE);
}

#[test]
#[cfg_attr(not(feature = "library"), ignore = "the library is linked by --all-features")]
fn the_library_answers_at_a_state_as_from_it() {
    all_agree(&library());
}

/// Worked by hand: M's states are idle, have one step by `req`, or two.
#[test]
fn worked_answers() {
    for (table, formula, answers) in [
        (M, "T", &[1, 1, 1][..]),
        (M, "~T", &[0, 0, 0]),
        (M, "EX[req] T", &[1, 0, 0]),
        (M, "EX[ack] T", &[0, 1, 0]),
        (M, "EX[.] T", &[0, 1, 1]),
        (M, "AX[.] T", &[0, 0, 1]),
        (M, "EU[*;ack] T", &[1, 1, 0]),
        (M, "EU[*] EX[.] T", &[1, 1, 1]),
        (M, "AG ~EX[ack] T", &[0, 0, 1]),
        (M, "BOX[req] ~EX[ack] T", &[0, 1, 1]),
        (ONE_STATE, "EX[.] T", &[1]),
        (ONE_STATE, "EX[*] T", &[0]),
    ] {
        let table = Table::read(table.as_bytes()).expect("a table");
        let formula = Formula::read(&table, formula.as_bytes()).expect(formula);
        let bytes = (prepared::table_bytes(&table), prepared::formula_bytes(&formula));
        for of in [&SECOND, &BASELINE] {
            let (reply, answered) = verdicts(of, &bytes.0, &bytes.1, &states(&table));
            assert_eq!(answered, answers, "{formula:?}");
            assert_eq!(reply, Reply::accepted((!answers.contains(&0)).into()), "{formula:?}");
        }
    }
}

/// Any list that rises has the answers of its states, and all of them jointly.
#[test]
fn a_part_of_the_states_is_answered_as_among_all() {
    let table = Table::read(M.as_bytes()).expect("a table");
    let bytes = prepared::table_bytes(&table);
    for text in ["T", "~T", "EX[req] T", "EX[.] T", "AX[.] T", "EU[*;ack] T"] {
        let formula = Formula::read(&table, text.as_bytes()).expect("a formula");
        let formula = prepared::formula_bytes(&formula);
        let (_, all) = verdicts(&SECOND, &bytes, &formula, &[0, 1, 2]);
        for part in 0..8u8 {
            let starts: Vec<u8> = (0..3).filter(|state| part >> state & 1 == 1).collect();
            let answers: Vec<u8> = starts.iter().map(|&state| all[usize::from(state)]).collect();
            let joint = Reply::accepted((!answers.contains(&0)).into());
            for of in [&SECOND, &BASELINE] {
                let answered = verdicts(of, &bytes, &formula, &starts);
                assert_eq!(answered, (joint, answers.clone()), "{text} at {starts:?}");
            }
        }
    }
}
