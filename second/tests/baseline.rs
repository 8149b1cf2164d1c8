//! The baseline answers as the second explainer does.

use std::collections::{BTreeMap, BTreeSet};

use second::baseline::BASELINE;
use second::compare::{self, Lent};
use second::compare::{Case, disagreement};
use second::entries::SECOND;
use second::fuzz;
use second::inputs::questions;
use second::inputs::rng::Rng;
use second::prepared::{self, FORMULA_LENGTH};

#[test]
fn random_calls_agree_and_reach_every_refusal() {
    let mut reached: BTreeMap<&str, BTreeSet<u32>> = BTreeMap::new();
    let outcome = fuzz::run(&SECOND, &BASELINE, 21, 20_000, |tally| {
        reached.insert(tally.of, tally.numbers().into_keys().collect());
    });
    assert_eq!(outcome, Ok(()));
    let expected: BTreeMap<&str, BTreeSet<u32>> = BTreeMap::from([
        ("read_table", [0, 1, 2, 3, 4, 14].into()),
        ("table_text", [0, 10, 14].into()),
        ("combine", [0, 10, 14, 17, 18, 19].into()),
        ("read_formula", [0, 5, 6, 7, 8, 9, 10, 14].into()),
        ("write_formula", [0, 10, 14, 15].into()),
        ("verdict", [0, 10, 14].into()),
        ("verdicts", [0, 10, 14, 16].into()),
        ("build", [0, 10, 11, 12, 14].into()),
        ("smallest", [0, 10, 11, 12, 14, 20].into()),
        ("accepts", [0, 10, 13, 14].into()),
        ("explain", [0, 1, 2, 3, 4, 5, 6, 7, 8, 9, 11, 12, 14].into()),
    ]);
    assert_eq!(reached, expected);
}

#[test]
fn the_longest_listings_agree() {
    for seed in 0..3 {
        let question = questions::longest_listing(&mut Rng::new(seed));
        let lent = |length| Lent { length, fill: seed };
        let case = compare::Build {
            table: prepared::table_bytes(&question.table),
            formula: prepared::formula_bytes(&question.formula),
            rows: lent(10_496 * 3),
            edges: lent(1_000_000 * 5),
        };
        agree(&case);
        let built = case.answer(&SECOND).expect("the second explainer builds");
        assert!(built.reply.figure > 9_000, "{}", built.reply.figure);
        let edge_count = built.value("edge_count");
        assert!(edge_count > 500_000, "{edge_count}");
    }
}

/// Every text of four of these bytes behind each beginning.
fn texts_agree(bytes: &[u8], beginnings: &[&str]) {
    let text = b"     1     3     0     0\n     1 a\n     2 a?\n     3 aa!\n";
    let table = second::table::Table::read(text);
    let table = prepared::table_bytes(&table.expect("a table"));
    for beginning in beginnings {
        for index in 0..bytes.len().pow(4) {
            let digit = |place: u32| bytes[index / bytes.len().pow(place) % bytes.len()];
            let text = [beginning.as_bytes(), &[0, 1, 2, 3].map(digit)].concat();
            let lent = &mut [[0; FORMULA_LENGTH]; 2];
            let second = second::entries::read_formula(&table, &text, &mut lent[0]);
            let baseline = second::baseline::read_formula(&table, &text, &mut lent[1]);
            assert_eq!(second, baseline, "{}", text.escape_ascii());
            assert!(lent[0] == lent[1], "{}", text.escape_ascii());
        }
    }
}

/// The beginnings lead into each part of the grammar.
#[test]
fn short_texts_agree_after_every_kind_of_beginning() {
    let beginnings = [
        "",
        "(T",
        "EX[",
        "EX[a",
        "EX[a?",
        "EX[abcdefghijk",
        "EU[a|",
        "EU[*;(",
        "AX[.]",
        "T|EX[a]",
        "~(~",
    ];
    texts_agree(b"T~|()[];.*a?!EX U1", &beginnings);
}

/// The beginnings lead to each border of a short form.
#[test]
fn short_texts_agree_about_short_forms() {
    let beginnings = [
        "", "T&", "~T|", "(~T&", "~T&~T", "D", "DIA", "BO", "BOX[", "DIA[a", "BOX[a]", "E", "A",
        "AG", "EF", "AG~T",
    ];
    texts_agree(b"T~|&()[].;aAGEF ", &beginnings[..]);
    texts_agree(b"TIAOX[]a& ", &beginnings[..]);
}

fn agree<C: Case>(case: &C) {
    let answers = [&SECOND, &BASELINE].map(|of| case.answer(of).expect("both have all entries"));
    assert_eq!(disagreement(case, &answers[0], &answers[1]), None);
}
