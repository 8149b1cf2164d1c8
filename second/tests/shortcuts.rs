//! The lines of 01's "Shortcuts that lose or invent a word", and others like them.

mod common;

use common::{LOOPS, M, ONE_STATE, question};

#[test]
fn equal_subformulas_are_different_places() {
    let apart = question(LOOPS, "EX[b] T | EX[c] T | EX[a] EX[b] T");
    assert!(apart.accepts(&[1, 2]));
    assert!(!apart.accepts(&[1, 3]));
    let places: Vec<u8> = apart.listing().rows.iter().map(|row| row.place).collect();
    assert_eq!(places, [0, 7, 3, 5, 8]);
}

#[test]
fn a_state_already_visited_under_another_place_is_entered_again() {
    let twice = question(LOOPS, "EX[a] EX[a] T");
    assert_eq!(twice.words(4), [[1, 1]]);
    assert_eq!(twice.listing().rows.len(), 3);
}

#[test]
fn an_idle_step_is_a_step_of_the_word() {
    assert_eq!(question(ONE_STATE, "EX[.] T").words(3), [[99]]);
    assert_eq!(question(ONE_STATE, "AX[*] T").words(3), [[99]]);
    assert_eq!(question(ONE_STATE, "AX[.] AX[*] T").words(3), [[99, 99]]);
    assert!(question(ONE_STATE, "AX[.] T").words(3).is_empty());
}

#[test]
fn of_two_steps_between_the_same_states_one_may_fail() {
    let table = "     2     2     2     0
     1 a
     2 b
     0     1     1
     0     2     1
";
    let question = question(table, "AX[a] T");
    assert_eq!(question.verdict(), 0);
    assert_eq!(question.words(2), [[2]]);
}

#[test]
fn a_class_1_formula_that_does_not_hold_has_one_bare_row() {
    for formula in ["EX[ack] T", "EU[~*;ack] T", "EX[req] EX[req] T", "~AX[req] T"] {
        let question = question(M, formula);
        assert_eq!((question.verdict(), question.class()), (0, 1), "{formula}");
        let listing = question.listing();
        assert_eq!((listing.rows.len(), listing.edges.len()), (1, 0), "{formula}");
        assert!(!listing.rows[0].is_final, "{formula}");
        assert!(question.words(3).is_empty(), "{formula}");
    }
}

#[test]
fn a_bare_row_lists_no_step_back_to_itself() {
    let question = question(ONE_STATE, "EU[*] EX[*] T");
    let listing = question.listing();
    assert_eq!((listing.rows.len(), listing.edges.len()), (1, 0));
}

#[test]
fn an_edge_that_two_branches_share_is_listed_once() {
    let question = question(LOOPS, "~AX[a] T | ~AX[b] T");
    assert_eq!(question.words(2), [[1], [2], [3]]);
    let listing = question.listing();
    let labels: Vec<u8> = listing.edges.iter().map(|edge| edge.label).collect();
    assert_eq!(labels, [1, 2, 3]);
    assert_eq!(listing.rows[1].place, 7);
}

#[test]
fn a_complement_never_admits_the_silent_step() {
    assert_eq!(question(ONE_STATE, "EX[~*] T").verdict(), 0);
    assert_eq!(question(ONE_STATE, "EX[~~*] T").verdict(), 0);
    assert_eq!(question(M, "EX[req] EX[~req] T").words(3), [[1, 2]]);
}
