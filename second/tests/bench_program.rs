//! The stored output of the program `bench` is the bench sheet by this explainer's methods.

mod common;

use std::fmt::Write;

use common::{LOOPS, M, ONE_STATE, question};
use second::print;

type Words = &'static [&'static [u8]];

struct Line {
    name: &'static str,
    table: &'static str,
    formula: String,
    words: Words,
}

fn line(name: &'static str, table: &'static str, formula: &str, words: Words) -> Line {
    Line { name, table, formula: formula.into(), words }
}

fn sheet() -> Vec<Line> {
    let m = |formula: &str, words| line("M", M, formula, words);
    let one_state = |formula, words| line("one state", ONE_STATE, formula, words);
    let mut sheet = vec![
        m("T", &[&[], &[1]]),
        m("~T", &[&[], &[1]]),
        m("AX[req] T", &[&[], &[1]]),
        m("AX[ack] T", &[&[1], &[], &[2], &[1, 0]]),
        m("AX[req] AX[ack] T", &[&[1, 0], &[1], &[1, 2]]),
        m("EU[req] EX[ack] T", &[&[1, 2], &[], &[2], &[1, 2, 1, 2]]),
        m("EU[~req] T", &[&[], &[1]]),
        m("EX[ack] T", &[&[], &[2]]),
        m("", &[]),
        m("EX[a T", &[]),
        m("EX[a] T", &[]),
        m("T | ~T", &[]),
        m("~EX[req] ~T", &[]),
        m(&("~".repeat(39) + "T"), &[]),
        m(&("~".repeat(40) + "T"), &[]),
        one_state("EU[*] EX[.] T", &[&[99], &[99, 99], &[99, 99, 99], &[], &[0]]),
        one_state("EX[*] T", &[&[99]]),
        one_state("AX[.] T", &[&[99]]),
        line(
            "loops",
            LOOPS,
            "EX[b] T | EX[c] T | EX[a] EX[b] T",
            &[&[2], &[3], &[1, 2], &[1, 3], &[], &[1], &[2, 2]],
        ),
    ];
    sheet.extend(short_forms());
    sheet.extend(REFUSED.map(|formula| m(formula, &[])));
    sheet
}

/// Lines of request 2, each accepted one beside its expansion.
fn short_forms() -> impl Iterator<Item = Line> {
    let lines: [(&str, &str, Words); 4] = [
        ("AG ~EX[ack] T", "(~EU[*] ~~EX[ack] T)", &[&[1, 2], &[], &[2], &[1, 2, 1, 2]]),
        ("BOX[req] ~EX[ack] T", "(~EX[req] ~~EX[ack] T)", &[&[1, 2], &[1], &[]]),
        ("EF DIA[ack] T", "(EU[*] (EX[ack] T))", &[&[1, 2], &[1, 2, 1, 2], &[]]),
        ("AX[req] T & ~EX[ack] T", "(~(~AX[req] T | ~~EX[ack] T))", &[&[], &[1], &[2]]),
    ];
    lines.into_iter().flat_map(|(typed, expansion, words)| {
        [typed, expansion].map(|formula| line("M", M, formula, words))
    })
}

const REFUSED: [&str; 26] = [
    "T & T",
    "AG T",
    "BOX[req] T",
    "AG EF T",
    "T | ~T & ~T",
    "(T | ~T) & ~T",
    "DI",
    "BO",
    "EF",
    "T&",
    "T & ",
    "DIAT",
    "DIA T",
    "DIA[.",
    "BOX[req;",
    "EF[req] T",
    "AG [req]",
    "T&&T",
    "&",
    "EX[req]&T",
    "EX[req&ack",
    "EG T",
    "AF T",
    "E F T",
    "AG ~EX[a] T",
    "T&T&T&T&T&T&T&T&T",
];

fn printed(line: &Line) -> String {
    let listing = print::explain(line.table.as_bytes(), line.formula.as_bytes());
    let listing = str::from_utf8(&listing).expect("ASCII");
    let mut text = format!("{} \"{}\"\n{listing}", line.name, line.formula);
    for word in line.words {
        let accepted = u8::from(question(line.table, &line.formula).accepts(word));
        let letters: String = word.iter().map(|letter| format!(" {letter}")).collect();
        writeln!(text, "word{letters}: {accepted}").expect("a string takes every byte");
    }
    text
}

#[test]
fn the_stored_output_is_the_sheet_byte_for_byte() {
    let stored = include_str!("../../crates/bench/stdout");
    let printed: String = sheet().iter().map(printed).collect();
    assert_eq!(stored, printed);
}
