//! The comparison finds faults: each of these explainers is wrong in one thing.

use second::entries::{self, Entries, SECOND};
use second::fuzz;
use second::prepared::{FORMULA_LENGTH, TABLE_LENGTH};
use second::reply::Reply;
use second::tally::{Kind, Outcome, Tally};

/// What the comparison tells of an explainer that is wrong in one entry.
fn told(wrong: Entries) -> String {
    let outcome = fuzz::run(&SECOND, &wrong, 31, 3_000, |_| ());
    outcome.expect_err("the fault is found").to_string()
}

#[test]
fn a_right_explainer_is_not_blamed() {
    assert_eq!(fuzz::run(&SECOND, &SECOND, 31, 500, |_| ()), Ok(()));
}

#[test]
fn a_missing_entry_is_not_compared() {
    let mut compared = Vec::new();
    let wrong = Entries { verdict: SECOND.verdict, ..Entries::default() };
    let outcome = fuzz::run(&SECOND, &wrong, 31, 10, |tally| compared.push(tally.of));
    assert_eq!((outcome, compared), (Ok(()), vec!["verdict"]));
}

#[test]
fn a_number_or_a_kind_of_input_that_dries_up_is_told() {
    let mut tallies = Vec::new();
    let outcome = fuzz::run(&SECOND, &SECOND, 31, 2_000, |tally| tallies.push(tally));
    assert_eq!(outcome, Ok(()));
    let accepts = tallies.iter_mut().find(|tally| tally.of == "accepts").expect("words");
    let told = |tally: &Tally| fuzz::missing(tally).join("\n");
    let before = told(accepts);
    accepts.outcomes.retain(|outcome, _| outcome.number != 13);
    assert!(!before.contains("13 was answered too seldom"), "{before}");
    assert!(told(accepts).contains("accepts: 13 was answered too seldom"));
    let last_byte = Kind { part: "table damaged", name: "last byte" };
    assert!(accepts.kinds.remove(&last_byte).is_some());
    assert!(told(accepts).contains("accepts: no table damaged: last byte"));
    let long = Kind { part: "word", name: "514 to 1,022 labels" };
    let answers = accepts.kinds.get_mut(&long).expect("long words");
    assert!(answers.remove(&Outcome::YES).is_some());
    assert!(told(accepts).contains("accepts: no word: 514 to 1,022 labels answered 0, figure 1"));
    let verdicts = tallies.iter_mut().find(|tally| tally.of == "verdicts").expect("starts");
    for (part, name) in [("starts", "none"), ("holds", "at the first, not at the last")] {
        let kind = Kind { part, name };
        assert!(verdicts.kinds.remove(&kind).is_some());
        assert!(told(verdicts).contains(&format!("verdicts: no {kind}")));
    }
    let count = Kind { part: "starts", name: "the count of states alone" };
    verdicts.kinds.get_mut(&count).expect("such lists").remove(&Outcome::of(16));
    assert!(told(verdicts).contains(&format!("verdicts: no {count} answered 16")));
    let combine = tallies.iter_mut().find(|tally| tally.of == "combine").expect("two tables");
    for (part, name) in [("tables", "41 labels"), ("arises", "twice, from both joints of a stem")] {
        let kind = Kind { part, name };
        assert!(combine.kinds.remove(&kind).is_some());
        assert!(told(combine).contains(&format!("combine: no {kind}")));
    }
    let most = Kind { part: "tables", name: "1,024 transitions" };
    combine.kinds.get_mut(&most).expect("such tables").remove(&Outcome::of(0));
    assert!(told(combine).contains(&format!("combine: no {most} answered 0")));
    let smallest = tallies.iter_mut().find(|tally| tally.of == "smallest").expect("automata");
    for (part, name) in
        [("sets of rows", "a ring, 256 sets"), ("smallest automaton", "99 beside other labels")]
    {
        let kind = Kind { part, name };
        assert!(smallest.kinds.remove(&kind).is_some());
        assert!(told(smallest).contains(&format!("smallest: no {kind}")));
    }
    let more = Kind { part: "sets of rows", name: "a ring, 257 sets" };
    smallest.kinds.get_mut(&more).expect("such rings").remove(&Outcome::of(20));
    assert!(told(smallest).contains(&format!("smallest: no {more} answered 20")));
}

#[test]
fn a_figure_off_by_one_is_found() {
    let told = told(Entries {
        read_formula: Some(|table, text, formula| {
            let reply = entries::read_formula(table, text, formula);
            let off = u64::from(reply.number == 6 && reply.figure > 3);
            Reply { figure: reply.figure + off, ..reply }
        }),
        ..Entries::default()
    });
    assert!(told.contains("read_formula: number and figure (6, "), "{told}");
}

#[test]
fn refusals_in_another_order_are_found() {
    let told = told(Entries {
        read_formula: Some(|table, text, formula| {
            match entries::read_formula(table, text, formula) {
                Reply { number: 7, .. } if text.len() > 40 => Reply { number: 8, figure: 41 },
                reply => reply,
            }
        }),
        ..Entries::default()
    });
    assert!(told.contains("(7, "), "{told}");
}

#[test]
fn a_byte_written_on_a_refusal_is_found() {
    let told = told(Entries {
        read_table: Some(|text, table| {
            let reply = entries::read_table(text, table);
            if let (4, Some(byte)) = (reply.number, table.last_mut()) {
                *byte ^= 1;
            }
            reply
        }),
        ..Entries::default()
    });
    assert!(told.contains("written buffer 0: byte "), "{told}");
}

#[test]
fn a_byte_past_the_prepared_length_is_found() {
    let told = told(Entries {
        read_formula: Some(|table, text, formula| {
            let reply = entries::read_formula(table, text, formula);
            if let (0, Some(byte)) = (reply.number, formula.get_mut(FORMULA_LENGTH)) {
                *byte ^= 1;
            }
            reply
        }),
        ..Entries::default()
    });
    assert!(told.contains("written buffer 0: byte 681 "), "{told}");
}

#[test]
fn a_prepared_byte_not_written_is_found() {
    let told = told(Entries {
        read_table: Some(|text, table| {
            let before = table.get(TABLE_LENGTH - 1).copied();
            let reply = entries::read_table(text, table);
            if let Some(before) = before {
                table[TABLE_LENGTH - 1] = before;
            }
            reply
        }),
        ..Entries::default()
    });
    assert!(told.contains("written buffer 0: byte 3717 is 0 here"), "{told}");
}

#[test]
fn a_lost_word_is_found() {
    let told = told(Entries {
        accepts: Some(|table, formula, word| match word {
            [.., 1, 0] => Reply { figure: 0, ..entries::accepts(table, formula, word) },
            _ => entries::accepts(table, formula, word),
        }),
        ..Entries::default()
    });
    assert!(told.contains("accepts: number and figure "), "{told}");
}

#[test]
fn edges_in_another_order_are_found() {
    let told = told(Entries {
        build: Some(|table, formula, rows, edges, edge_count| {
            let reply = entries::build(table, formula, rows, edges, edge_count);
            if reply.number == 0 && *edge_count >= 2 {
                let second = *edge_count as usize * 5 - 5;
                edges[second - 5..].rotate_left(5);
            }
            reply
        }),
        ..Entries::default()
    });
    assert!(told.contains("written buffer 1: byte "), "{told}");
}

#[test]
fn a_final_mark_dropped_is_found() {
    let told = told(Entries {
        build: Some(|table, formula, rows, edges, edge_count| {
            let reply = entries::build(table, formula, rows, edges, edge_count);
            if reply.number == 0 && reply.figure == 4 {
                rows[3 * 3 + 2] = 0;
            }
            reply
        }),
        ..Entries::default()
    });
    assert!(told.contains("written buffer 0: byte 11 "), "{told}");
}

#[test]
fn a_count_of_edges_written_on_a_refusal_is_found() {
    let told = told(Entries {
        build: Some(|table, formula, rows, edges, edge_count| {
            let reply = entries::build(table, formula, rows, edges, edge_count);
            if reply.number == 12 {
                *edge_count = reply.figure;
            }
            reply
        }),
        ..Entries::default()
    });
    assert!(told.contains("edge_count "), "{told}");
}

#[test]
fn a_verdict_written_on_a_refusal_is_found() {
    let told = told(Entries {
        explain: Some(|text, formula, t, f, rows, edges, verdict, class, edge_count| {
            let reply =
                entries::explain(text, formula, t, f, rows, edges, verdict, class, edge_count);
            *verdict = if reply.number == 9 { 0 } else { *verdict };
            reply
        }),
        ..Entries::default()
    });
    assert!(told.contains("\nverdict "), "{told}");
}

#[test]
fn a_prepared_table_left_by_a_refusal_is_found() {
    let told = told(Entries {
        explain: Some(|text, formula, t, f, rows, edges, verdict, class, edge_count| {
            let reply =
                entries::explain(text, formula, t, f, rows, edges, verdict, class, edge_count);
            if reply.number == 11 {
                entries::read_table(text, t);
            }
            reply
        }),
        ..Entries::default()
    });
    assert!(told.contains("explain: number and figure (11, "), "{told}");
    assert!(told.contains("written buffer 0: byte "), "{told}");
}

#[test]
fn a_wrong_verdict_where_the_start_is_idle_is_found() {
    let told = told(Entries {
        verdict: Some(|table, formula| match entries::verdict(table, formula) {
            Reply { number: 0, figure } if table[5] != table[646] => {
                Reply::accepted(figure & u64::from(table[3] > 0))
            }
            reply => reply,
        }),
        ..Entries::default()
    });
    assert!(told.contains("verdict: number and figure (0, 1) here, (0, 0) there"), "{told}");
}

#[test]
fn a_disagreement_is_told_as_a_test() {
    let told = told(Entries { verdict: Some(|_, _| Reply::accepted(1)), ..Entries::default() });
    assert!(
        told.contains("#[test]\nfn verdict_agrees() {\n    agree(&Verdict { table: sparse("),
        "{told}"
    );
}
