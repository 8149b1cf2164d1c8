//! explainer.h says what is true: its constants are those of 01, of the formats and of the refusals, and
//! every function that it declares is compared.

mod common;

use std::collections::BTreeSet;
use std::fs;

use common::header::{defines, functions, header, root};
use second::entries::{EDGE_PLACE, ROW_PLACE};
use second::formula::{MAX_BYTES, MAX_NODES};
use second::inputs::rng::Rng;
use second::inputs::tables::longest_table;
use second::interface::{Declared, INTERFACE};
use second::prepared::{FORMULA_LENGTH, TABLE_LENGTH};
use second::reply::{Refusal, Reply};
use second::smallest::{SMALLEST_LENGTH, WORK_LENGTH};
use second::table::{IDLE, MAX_LABELS, MAX_NAME, MAX_STATES, MAX_TEXT, MAX_TRANSITIONS};
use second::word::MAX_WORD;

/// Every constant of the header but those of the stack, which tests/stack.rs measures.
fn constants() -> Vec<(&'static str, usize)> {
    let number = |refusal: Refusal| Reply::from(refusal).number as usize;
    vec![
        ("TABLE_LENGTH", TABLE_LENGTH),
        ("FORMULA_LENGTH", FORMULA_LENGTH),
        ("ROW_LENGTH", ROW_PLACE),
        ("EDGE_LENGTH", EDGE_PLACE),
        ("SMALLEST_LENGTH", SMALLEST_LENGTH),
        ("WORK_LENGTH", WORK_LENGTH),
        ("MOST_STATES", MAX_STATES),
        ("MOST_LABELS", MAX_LABELS),
        ("MOST_TRANSITIONS", MAX_TRANSITIONS),
        ("LONGEST_NAME", MAX_NAME),
        ("LONGEST_TABLE_TEXT", MAX_TEXT),
        ("LONGEST_FORMULA_TEXT", MAX_BYTES),
        ("MOST_NODES", MAX_NODES),
        ("MOST_ROWS", (MAX_NODES + 1) * MAX_STATES),
        ("MOST_EDGES", (MAX_NODES + 1) * (MAX_NODES + 1) * (MAX_TRANSITIONS + MAX_STATES)),
        ("LONGEST_WORD", MAX_WORD),
        ("IDLE_LABEL", IDLE.into()),
        ("WITNESSES", common::question(common::M, "T").class() as usize),
        ("COUNTEREXAMPLES", common::question(common::M, "~T").class() as usize),
        ("ACCEPTED", Reply::accepted(0).number as usize),
        ("TABLE_NOT_LAID_OUT", number(Refusal::Layout(0))),
        ("TABLE_OUT_OF_RANGE", number(Refusal::Range(0))),
        ("NAME_REPEATED", number(Refusal::NameUsed(0))),
        ("NOT_RISING", number(Refusal::NotAbove(0))),
        ("FORMULA_TOO_LONG", number(Refusal::FormulaLength(0))),
        ("FORMULA_NOT_GRAMMATICAL", number(Refusal::Grammar(0))),
        ("NAME_UNKNOWN", number(Refusal::UnknownName(0))),
        ("TOO_MANY_NODES", number(Refusal::NodeCount(0))),
        ("NO_CLASS", number(Refusal::NoClass(0))),
        ("NOT_PREPARED", number(Refusal::PreparedTable)),
        ("ROWS_SHORT", number(Refusal::RowPlaces(0))),
        ("EDGES_SHORT", number(Refusal::EdgePlaces(0))),
        ("WORD_BAD", number(Refusal::Word(0))),
        ("BUFFER_SHORT", number(Refusal::ShortBuffer(0))),
        ("TEXT_TOO_LONG", number(Refusal::TextLength(0))),
        ("STARTS_BAD", number(Refusal::Start(0))),
        ("TOO_MANY_PAIRS", number(Refusal::PairCount(0))),
        ("TOO_MANY_LABELS", number(Refusal::LabelCount(0))),
        ("TOO_MANY_TRANSITIONS", number(Refusal::TransitionCount(0))),
        ("TOO_MANY_SETS", number(Refusal::SetCount(0))),
    ]
}

fn stack_of(row: &Declared) -> String {
    format!("EXPLAINER_{}_STACK", row.entry.to_uppercase())
}

#[test]
fn the_constants_are_those_of_the_second_explainer() {
    let expected = constants().into_iter();
    let expected: Vec<(String, u64)> =
        expected.map(|(name, value)| (format!("EXPLAINER_{name}"), value as u64)).collect();
    let stated = defines().into_iter().filter(|(name, _)| !name.ends_with("_STACK"));
    assert_eq!(stated.collect::<Vec<_>>(), expected);
}

#[test]
fn the_longest_text_of_a_table_has_the_most_bytes() {
    assert_eq!(longest_table(&mut Rng::new(1)).text().len(), MAX_TEXT);
}

#[test]
fn every_function_of_the_header_has_a_row_in_the_table_of_what_is_compared() {
    let prototype = |row: &Declared| {
        let slice = |(name, written): &(&str, bool)| {
            let kept = if *written { "" } else { "const " };
            format!("{kept}uint8_t *{name}, size_t {name}_len")
        };
        let value = |name: &&str| format!("uint64_t *{name}");
        let slices = row.slices.iter().map(slice).chain(["uint64_t *figure".into()]);
        let parameters: Vec<String> = slices.chain(row.values.iter().map(value)).collect();
        format!("uint32_t {}({})", row.function, parameters.join(", "))
    };
    let rows: Vec<String> = INTERFACE.iter().map(prototype).collect();
    assert_eq!(functions(), rows);
}

#[test]
fn every_function_of_the_library_is_in_the_header() {
    let source = root().join("crates/explainer/src/exports.rt");
    let source = fs::read_to_string(source).expect("the functions for C");
    let name = |part: &str| part.split('(').next().unwrap_or_default().to_owned();
    let exported: BTreeSet<String> =
        source.split("pub extern \"C\" fn ").skip(1).map(name).collect();
    let rows = INTERFACE.iter().map(|row| row.function.to_owned()).collect();
    assert_eq!(exported, rows);
}

#[test]
fn each_function_has_a_figure_for_its_stack_and_the_documents_have_it_too() {
    let stated: Vec<(String, u64)> =
        defines().into_iter().filter(|(name, _)| name.ends_with("_STACK")).collect();
    let names: Vec<&String> = stated.iter().map(|(name, _)| name).collect();
    let rows: Vec<String> = INTERFACE.iter().map(stack_of).collect();
    assert_eq!(names, rows.iter().collect::<Vec<_>>());
    let api = fs::read_to_string(root().join("docs/API.md")).expect("the entries");
    for (row, (_, figure)) in INTERFACE.iter().zip(stated) {
        let figure = format!("{},{:03}", figure / 1_000, figure % 1_000);
        let begins = format!("| `{}` | {figure} |", row.entry);
        assert!(api.lines().any(|line| line.starts_with(&begins)), "docs/API.md: {begins}");
    }
}

#[test]
fn each_returned_number_has_words() {
    let header = header();
    let defines = defines().into_iter();
    let returned = defines.skip_while(|(name, _)| name != "EXPLAINER_ACCEPTED").take(21);
    for (name, _) in returned {
        let words = header.split(&format!("case {name}: return \"")).nth(1);
        let words = words.and_then(|rest| rest.split_once("\";"));
        assert!(words.is_some_and(|(words, _)| !words.is_empty()), "{name}");
    }
    assert_eq!(header.matches("case EXPLAINER_").count(), 21);
}
