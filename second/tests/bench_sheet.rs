//! The bench sheet of 01, starred and unstarred lines, and the listing that 01 prints.

mod common;

use common::{LOOPS, M, ONE_STATE, Question, question, refused, reply_to};
use second::print;
use second::reply::Reply;

const LONGEST: usize = 5;

fn has_only_words(question: &Question, words: &[&[u8]]) {
    assert_eq!(question.words(LONGEST), words);
}

#[test]
fn on_m_true_holds_by_the_empty_word_only() {
    let question = question(M, "T");
    assert_eq!(question.verdict(), 1);
    has_only_words(&question, &[&[]]);
}

#[test]
fn on_m_not_true_is_class_2_and_fails_by_the_empty_word_only() {
    let question = question(M, "~T");
    assert_eq!((question.verdict(), question.class()), (0, 2));
    has_only_words(&question, &[&[]]);
}

#[test]
fn on_m_every_step_is_a_request_without_a_word() {
    let question = question(M, "AX[req] T");
    assert_eq!(question.verdict(), 1);
    has_only_words(&question, &[]);
}

#[test]
fn on_m_a_step_that_is_no_acknowledgement_ends_in_place_2_state_1() {
    let question = question(M, "AX[ack] T");
    assert_eq!(question.verdict(), 0);
    has_only_words(&question, &[&[1]]);
    let rows = question.listing().rows;
    let last = rows[rows.len() - 1];
    assert_eq!((last.place, last.state, last.is_final), (2, 1, true));
}

#[test]
fn on_m_request_then_acknowledgement_fails_by_request_then_silence_only() {
    let question = question(M, "AX[req] AX[ack] T");
    assert_eq!(question.verdict(), 0);
    has_only_words(&question, &[&[1, 0]]);
}

#[test]
fn on_m_requests_until_an_acknowledgement_has_one_word() {
    has_only_words(&question(M, "EU[req] EX[ack] T"), &[&[1, 2]]);
}

#[test]
fn on_m_until_true_without_requests_has_the_empty_word_only() {
    has_only_words(&question(M, "EU[~req] T"), &[&[]]);
}

#[test]
fn on_m_no_acknowledgement_at_once_leaves_one_row() {
    let question = question(M, "EX[ack] T");
    assert_eq!((question.verdict(), question.class()), (0, 1));
    let listing = question.listing();
    assert_eq!((listing.rows.len(), listing.edges.len()), (1, 0));
    assert!(!listing.rows[0].is_final);
}

#[test]
fn on_m_texts_are_refused_where_the_grammar_and_the_names_end() {
    assert_eq!(reply_to(M, ""), refused(6, 0));
    assert_eq!(reply_to(M, "EX[a T"), refused(6, 5));
    assert_eq!(reply_to(M, "EX[a] T"), refused(7, 3));
}

#[test]
fn on_m_mixed_classes_are_refused_at_the_highest_node_without_class() {
    assert_eq!(reply_to(M, "T | ~T"), refused(9, 0));
    assert_eq!(reply_to(M, "~EX[req] ~T"), refused(9, 1));
}

#[test]
fn on_m_forty_nodes_are_the_most() {
    let negations = |count: usize| "~".repeat(count) + "T";
    assert_eq!(reply_to(M, &negations(39)), Reply::accepted(0));
    assert_eq!(reply_to(M, &negations(40)), refused(8, 41));
}

#[test]
fn on_one_state_until_silence_has_the_words_of_one_or_more_idle_steps() {
    let question = question(ONE_STATE, "EU[*] EX[.] T");
    has_only_words(&question, &[&[99], &[99; 2], &[99; 3], &[99; 4], &[99; 5]]);
    assert!(question.accepts(&[99; 1_024]));
}

#[test]
fn on_one_state_only_silence_is_a_step() {
    assert_eq!(question(ONE_STATE, "EX[*] T").verdict(), 0);
    assert_eq!(question(ONE_STATE, "AX[.] T").verdict(), 1);
}

#[test]
fn on_loops_equal_subformulas_keep_their_places() {
    let question = question(LOOPS, "EX[b] T | EX[c] T | EX[a] EX[b] T");
    has_only_words(&question, &[&[2], &[3], &[1, 2]]);
    assert!(!question.accepts(&[1, 3]));
}

#[test]
fn the_listing_of_01_is_printed_byte_for_byte() {
    let listing = "     1     1     3     3
     0     0     0     0
     1     0     1     0
     2     1     0     1
     0     1     1
     1     2     0
     1     2     2
";
    let printed = print::explain(M.as_bytes(), b"EU[*;ack] T");
    assert_eq!(String::from_utf8(printed).unwrap(), listing);
}
