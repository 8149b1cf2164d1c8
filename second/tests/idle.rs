//! Request 3 of 02: the idle step carries 99, is silent in formulas, and a silent loop that is written
//! stays 0.

mod common;

use common::loops::{exchanged, has_exit, with_loops};
use common::{LOOPS, M, prepare_table, question, refused, shortest_word};
use second::compare::Case;
use second::entries::{self, SECOND};
use second::formula::{Condition, Set};
use second::fuzz;
use second::inputs::kinds::Kinds;
use second::inputs::questions::{self, Question};
use second::inputs::rng::Rng;
use second::inputs::tables::{self, EXITS_OF};
use second::listing::{Edge, Listing};
use second::prepared::{FORMULA_LENGTH, TABLE_LENGTH};
use second::reply::Reply;
use second::table::{IDLE, SILENT, Step, Table, alphabet, is_silent};
use second::{print, verdict, word};

/// By a to a state whose only exit is a silent loop, by b to one without exits.
const BESIDE: &str = "     3     2     3     0
     1 a
     2 b
     0     1     1
     0     2     2
     1     0     1
";

fn random_questions(count: u64) -> impl Iterator<Item = Question> {
    (0..count).map(|index| {
        let rng = &mut Rng::of_input(13, "idle", index);
        questions::of_any_size(rng, &mut Kinds::default(), 2_000, 20_000)
    })
}

#[test]
fn a_step_carries_0_to_the_label_count_or_99_in_this_order() {
    assert_eq!(alphabet(2).collect::<Vec<u8>>(), [0, 1, 2, 99]);
    assert_eq!(alphabet(0).collect::<Vec<u8>>(), [0, 99]);
    assert_eq!(alphabet(40).last(), Some(99));
    assert!(alphabet(40).is_sorted());
}

#[test]
fn the_silent_steps_are_0_and_99() {
    let silent = (0..=u8::MAX).filter(|&label| is_silent(label));
    assert_eq!(silent.collect::<Vec<u8>>(), [0, 99]);
}

#[test]
fn an_idle_step_meets_no_set_and_passes_every_until() {
    for labels in [0, 1, 34, 35, 36, 40] {
        for set in [Set::EMPTY, Set::all(labels), Set::of(1).complement(labels)] {
            assert!(!set.has(IDLE) && !Condition::Among(set).meets(IDLE), "{labels}");
            assert!(set.passes(IDLE), "{labels}");
        }
    }
    assert!(Condition::Silent.meets(IDLE));
}

#[test]
fn a_silent_loop_beside_an_idle_step_stays_0() {
    let at_rest = question(BESIDE, "EX[*] EX[.] T");
    assert_eq!(at_rest.words(3), [[1, 0], [2, 99]]);
    let longer = question(BESIDE, "EX[*] EU[~*] EX[.] EX[.] T");
    assert_eq!(
        longer.words(4),
        [vec![1, 0, 0], vec![2, 99, 99], vec![1, 0, 0, 0], vec![2, 99, 99, 99]]
    );
}

#[test]
fn a_silent_loop_and_an_idle_step_are_printed_apart() {
    let listing = "     1     1     5     4
     0     0     0     0
     1     1     1     0
     2     1     2     0
     3     2     1     1
     4     2     2     1
     0     1     1
     0     2     2
     1     0     3
     2    99     4
";
    let printed = print::explain(BESIDE.as_bytes(), b"EX[*] EX[.] T");
    assert_eq!(String::from_utf8(printed).expect("ASCII"), listing);
}

#[test]
fn an_idle_step_meets_the_silent_step_and_no_set() {
    let idle = "     1     2     0     0\n     1 req\n     2 ack\n";
    for (formula, verdict, words) in [
        ("EX[.] T", 1, vec![vec![99]]),
        ("EX[*] T", 0, vec![]),
        ("EX[~req] T", 0, vec![]),
        ("EX[~*] T", 0, vec![]),
        ("EX[req] T", 0, vec![]),
        ("AX[.] T", 1, vec![]),
        ("AX[*] T", 0, vec![vec![99]]),
        ("AX[~req] T", 0, vec![vec![99]]),
        ("AX[.] AX[~req] T", 0, vec![vec![99; 2]]),
        ("EU[req] T", 1, vec![vec![], vec![99], vec![99; 2]]),
        ("EU[~*] EX[.] T", 1, vec![vec![99], vec![99; 2]]),
        ("EU[*;~req] T", 0, vec![]),
        ("~EU[*] EX[.] T", 0, vec![vec![99], vec![99; 2]]),
    ] {
        let question = question(idle, formula);
        assert_eq!((question.verdict(), question.words(2)), (verdict, words), "{formula}");
    }
}

#[test]
fn the_word_0_does_not_stand_for_an_idle_step_nor_99_for_a_silent_one() {
    let question = question(M, "EU[*] EX[.] EX[.] T");
    assert!(question.accepts(&[1, 0, 99]));
    for word in [[1, 0, 0], [1, 99, 99], [1, 99, 0], [99, 0, 99]] {
        assert!(!question.accepts(&word), "{word:?}");
    }
}

#[test]
fn on_m_request_then_acknowledgement_fails_by_the_written_silent_step() {
    let question = question(M, "AX[req] AX[ack] T");
    assert!(question.accepts(&[1, 0]) && !question.accepts(&[1, 99]));
}

#[test]
fn over_a_table_in_which_every_state_has_exits_99_is_read_and_leads_nowhere() {
    let until = question(LOOPS, "EU[*] T");
    assert!(until.accepts(&[1, 2, 3]));
    for word in [vec![99], vec![1, 99], vec![99, 1], vec![1, 99, 2], vec![99; 1_024]] {
        assert!(!until.accepts(&word), "{} letters", word.len());
    }
}

#[test]
fn a_tables_text_and_prepared_tables_know_no_label_99() {
    let mut lent = [0; TABLE_LENGTH];
    for line in ["     1    99     1", "     1     3     1"] {
        let text = BESIDE.replace("     1     0     1", line);
        assert_eq!(entries::read_table(text.as_bytes(), &mut lent), refused(2, 6), "{line}");
    }
    let mut table = prepare_table(BESIDE);
    table[646 + 2 * 3 + 1] = 99;
    let reply = entries::read_formula(&table, b"T", &mut [0; FORMULA_LENGTH]);
    assert_eq!(reply, refused(10, 0));
}

#[test]
fn a_step_is_labelled_99_exactly_if_it_leaves_a_state_without_exits() {
    let mut idle = 0;
    for Question { table, .. } in random_questions(5_000) {
        let steps = table.steps();
        for state in (0..table.states).map(|state| state as u8) {
            let leaving = steps.from(state);
            assert!(!leaving.is_empty());
            for step in leaving {
                assert_eq!(step.label == 99, !has_exit(&table, state), "{step:?} of {table:?}");
                idle += u32::from(step.label == 99);
            }
        }
    }
    assert!(idle > 5_000, "{idle}");
}

#[test]
fn an_edge_is_labelled_99_exactly_if_the_state_of_its_row_has_no_exits() {
    let mut idle = 0;
    for Question { table, formula } in random_questions(5_000) {
        let listing = Listing::of(&table, &formula);
        for edge in &listing.edges {
            let state = listing.rows[edge.row as usize].state;
            assert_eq!(edge.label == 99, !has_exit(&table, state), "{edge:?} over {table:?}");
            idle += u32::from(edge.label == 99);
        }
    }
    assert!(idle > 1_000, "{idle}");
}

/// Over the same table with each idle step written out, steps carry the other silent label.
#[test]
fn nothing_but_the_letter_depends_on_which_silent_label_idle_steps_carry() {
    let (mut asked, mut explained, mut with_idle_steps) = (0, 0, 0);
    for Question { table, formula } in random_questions(20_000) {
        let Some(written) = with_loops(&table, SILENT) else {
            continue;
        };
        asked += 1;
        let verdicts = [&table, &written].map(|table| verdict::holds(table, &formula));
        assert_eq!(verdicts[0], verdicts[1], "{formula:?} over {table:?}");
        let listing = Listing::of(&table, &formula);
        let as_silent = |edge: &Edge| Edge { label: without_idle(&[edge.label])[0], ..*edge };
        let edges = listing.edges.iter().map(as_silent).collect();
        let other = Listing { rows: listing.rows.clone(), edges };
        assert!(other == Listing::of(&written, &formula), "{formula:?} over {table:?}");
        let Some(letters) = shortest_word(&listing) else {
            continue;
        };
        explained += 1;
        let has_idle_step = letters.contains(&IDLE);
        assert!(word::is_accepted(&table, &formula, &letters));
        assert!(word::is_accepted(&written, &formula, &without_idle(&letters)));
        assert_eq!(word::is_accepted(&written, &formula, &letters), !has_idle_step);
        with_idle_steps += u32::from(has_idle_step);
    }
    assert!(asked > 19_000 && explained > 5_000 && with_idle_steps > 500, "{with_idle_steps}");
}

fn without_idle(word: &[u8]) -> Vec<u8> {
    exchanged(word, IDLE, SILENT)
}

#[test]
fn a_table_is_made_with_the_exits_that_its_kind_names() {
    const TABLES: u64 = 400;
    for way in &EXITS_OF {
        let (mut idle, mut loops) = (0, 0);
        for index in 0..TABLES {
            let rng = &mut Rng::of_input(13, way.name, index);
            let [states, labels, count] = [rng.between(2, 6), rng.below(5), rng.below(13)];
            let drawn = tables::with_counts(rng, &mut Kinds::default(), states, labels, count);
            let table = (way.make)(rng, &drawn);
            assert_eq!(Table::read(&table.text()).as_ref(), Ok(&table), "{}", way.name);
            let mut states = 0..table.states as u8;
            idle += u64::from(states.any(|state| !has_exit(&table, state)));
            let is_loop = |step: &Step| step.label == SILENT && step.from == step.to;
            loops += u64::from(table.transitions.iter().any(is_loop));
        }
        match way.name {
            "of every state" | "silent loops in place of idle steps" => assert_eq!(idle, 0),
            "none of a state next to the start" => assert_eq!(idle, TABLES),
            "a silent loop beside an idle step" => assert_eq!([idle, loops], [TABLES; 2]),
            _ => assert!([idle, loops].iter().all(|some| (1..TABLES).contains(some))),
        }
    }
}

#[test]
fn accepted_words_with_idle_steps_are_drawn_often() {
    let (mut accepted, mut with_idle_steps, mut long) = (0, 0, 0);
    for index in 0..20_000 {
        let case = fuzz::accepts(&mut Rng::of_input(13, "accepts", index)).case;
        let answer = case.answer(&SECOND).expect("the second explainer has all entries");
        if answer.reply == Reply::accepted(1) {
            accepted += 1;
            with_idle_steps += u32::from(case.word.contains(&IDLE));
            long += u32::from(case.word.len() > 100 && case.word.contains(&IDLE));
        }
    }
    println!("{with_idle_steps} of {accepted} accepted words, {long} long ones");
    assert!(
        10 * with_idle_steps > accepted && long > 100,
        "{with_idle_steps}, {long} of {accepted}"
    );
}
