//! The folders that the program is run in: every kind is what its name says.

use std::collections::BTreeMap;

use second::formula::MAX_BYTES;
use second::inputs::folders::{File, Files, WAYS, folder};
use second::inputs::rng::Rng;
use second::inputs::tables::{longest_table, table_of_most};
use second::print;

/// Many folders of a kind.
fn made(name: &str) -> Vec<Files> {
    let way = WAYS.iter().find(|way| way.name == name).expect("a way");
    (0..150).map(|index| (way.files)(&mut Rng::of_input(5, name, index))).collect()
}

fn tables(name: &str) -> Vec<Vec<u8>> {
    made(name).iter().map(|files| files.table.contents().to_vec()).collect()
}

fn formulas(name: &str) -> Vec<Vec<u8>> {
    made(name).iter().map(|files| files.formula.contents().to_vec()).collect()
}

fn texts(name: &str) -> impl Iterator<Item = String> {
    let printed =
        |files: Files| print::explain_files(files.table.contents(), files.formula.contents());
    made(name).into_iter().map(move |files| String::from_utf8(printed(files)).expect("ASCII"))
}

/// Some folder of the kind is answered by a text that begins so.
fn answers(name: &str, beginning: &str) {
    assert!(texts(name).any(|text| text.starts_with(beginning)), "{name}: {beginning}");
}

fn ends_in_line_end(text: &[u8]) -> bool {
    text.ends_with(b"\n")
}

#[test]
fn every_kind_appears() {
    let mut times = BTreeMap::new();
    for index in 0..4 * 2 * WAYS.len() as u64 {
        *times.entry(folder(5, index).0.name).or_insert(0) += 1;
    }
    assert_eq!(times.len(), WAYS.len());
    assert!(times.values().all(|&times| times >= 4));
}

#[test]
fn files_are_missing_empty_or_folders() {
    use File::{Folder, Holds, Missing};
    let is = |kind: &str, wanted: fn(&Files) -> bool| {
        assert!(made(kind).iter().all(wanted), "{kind}");
    };
    is("table missing", |of| matches!((&of.table, &of.formula), (Missing, Holds(_))));
    is("formula missing", |of| matches!((&of.table, &of.formula), (Holds(_), Missing)));
    is("both missing", |of| matches!((&of.table, &of.formula), (Missing, Missing)));
    is("table a folder", |of| matches!((&of.table, &of.formula), (Folder, Holds(_))));
    is("formula a folder", |of| matches!((&of.table, &of.formula), (Holds(_), Folder)));
    is("both folders", |of| matches!((&of.table, &of.formula), (Folder, Folder)));
    is("table empty", |of| matches!(&of.table, Holds(bytes) if bytes.is_empty()));
    is("formula empty", |of| matches!(&of.formula, Holds(bytes) if bytes.is_empty()));
}

#[test]
fn a_table_that_is_read_and_no_formula_is_refusal_6() {
    for kind in ["formula missing", "formula empty", "formula a folder"] {
        assert!(texts(kind).all(|text| text == "     6     0\n"), "{kind}");
    }
}

#[test]
fn lines_end_by_nothing_or_by_two_bytes() {
    for table in tables("table: no LF at the end") {
        assert!(!ends_in_line_end(&table));
    }
    for formula in formulas("formula: no LF at the end") {
        assert!(!ends_in_line_end(&formula));
    }
    for formula in formulas("formula: CRLF") {
        assert!(formula.ends_with(b"\r\n"));
    }
    let returned = |table: &Vec<u8>| table.windows(2).any(|pair| pair == b"\r\n");
    assert!(tables("table: CRLF").iter().all(returned));
}

#[test]
fn formulas_of_about_512_bytes_have_each_length_with_and_without_line_end() {
    let kind = "formula of about 512 bytes";
    let formulas = formulas(kind);
    for length in MAX_BYTES - 1..=MAX_BYTES + 3 {
        let of = |end| {
            formulas.iter().any(|text| {
                text.strip_suffix(b"\n").unwrap_or(text).len() == length
                    && ends_in_line_end(text) == end
            })
        };
        assert!(of(false) && of(true), "{length}");
    }
    answers(kind, "     5   513\n");
    answers(kind, "     5   515\n");
    let longest_accepted = |files: &Files| {
        let formula = files.formula.contents();
        let text = print::explain_files(files.table.contents(), formula);
        formula.len() == MAX_BYTES + 1 && text.starts_with(b"     1     1")
    };
    assert!(made(kind).iter().any(longest_accepted));
}

#[test]
fn formulas_of_a_megabyte_have_a_line_end_or_none() {
    let kind = "formula of a megabyte";
    for text in formulas(kind) {
        assert!((1_048_575..=1_048_578).contains(&text.len()));
    }
    answers(kind, "     51048575\n");
    answers(kind, "     51048576\n");
    answers(kind, "     51048577\n");
    assert!(formulas(kind).iter().any(|text| ends_in_line_end(text)));
    assert!(formulas(kind).iter().any(|text| !ends_in_line_end(text)));
}

#[test]
fn the_largest_table_has_20321_bytes_and_without_marks_20281() {
    assert_eq!(25 + 40 * 21 + 1_024 * 19, 20_321);
    assert_eq!(longest_table(&mut Rng::new(1)).text().len(), 20_321);
    assert!(tables("largest table").iter().all(|table| table.len() == 20_321));
    assert_eq!(table_of_most(&mut Rng::new(1)).text().len(), 20_281);
    assert!(tables("largest table without marks").iter().all(|table| table.len() == 20_281));
}

#[test]
fn long_tables_have_each_length_from_20321_to_20340_and_a_megabyte() {
    let kind = "table of 20,321 to 20,340 bytes";
    for length in 20_321..=20_340 {
        assert!(tables(kind).iter().any(|table| table.len() == length), "{length}");
    }
    // The line after the largest table's last.
    answers(kind, "     1  1066\n");
    assert!(tables("table of a megabyte").iter().all(|table| table.len() == 1 << 20));
}

#[test]
fn listings_reach_the_limits_and_one_more() {
    answers("rows and edges at the limits", "     1     1  1024  4096\n");
    answers("rows and edges at the limits", "     1     1  1023  4095\n");
    answers("rows and edges at the limits", "    11  1025\n");
    answers("rows at the limit", "     1     1  1024 ");
    answers("rows at the limit", "    11  1025\n");
    answers("edges at the limit", "    12  4097\n");
    let fewer_rows_and_all_edges = |text: String| {
        let line = text.lines().next().expect("a line");
        line.len() == 24 && &line[12..18] < "  1023" && &line[18..] == "  4096"
    };
    assert!(texts("edges at the limit").any(fewer_rows_and_all_edges));
}

#[test]
fn every_number_that_the_program_can_print_appears() {
    for (kind, number) in [
        ("whole texts", "     1     1"),
        ("whole texts", "     0     2"),
        ("table of any text", "     1 "),
        ("number out of range", "     2     1\n"),
        ("number out of range", "     2  10"),
        ("name used twice", "     3 "),
        ("transition not above", "     4 "),
        ("formula of any text", "     6 "),
        ("name that the table lacks", "     7 "),
        ("name unknown only by its mark", "     7 "),
        ("operands of a direction", "     1     1"),
        ("table: another mark", "     3 "),
        ("table: a mark doubled", "     1 "),
        ("table: thirteen letters before a mark", "     1 "),
        ("formula: a mark doubled", "     6 "),
        ("formula: a blank before a mark", "     6 "),
        ("formula: thirteen letters before a mark", "     6 "),
        ("formula: another mark", "     7 "),
        ("short forms", "     1     1"),
        ("short forms", "     0     2"),
        ("short forms of 39 to 41 nodes", "     8    41\n"),
        ("short forms of 39 to 41 nodes", "     1     1"),
        ("short forms of 39 to 41 nodes", "     0     2"),
        ("short forms in 511 to 513 bytes", "     5   513\n"),
        ("short forms in 511 to 513 bytes", "     0     2"),
        ("short forms of up to 1,277 nodes", "     8  1276\n"),
        ("short forms of up to 1,277 nodes", "     8  1277\n"),
        ("short forms without class", "     9     1\n"),
        ("`&` beside `|`", "     9     0\n"),
        ("`&` beside `|`", "     9     3\n"),
        ("name that the table lacks behind a short form", "     7 "),
        ("formula: a short form cut off", "     6     2\n"),
        ("formula: a part of a keyword", "     6     2\n"),
        ("formula: a set behind EF or AG", "     6     2\n"),
        ("formula: no set behind DIA or BOX", "     6     3\n"),
        ("formula: `.` or `;` in DIA or BOX", "     6     4\n"),
        ("formula: `&` without a side", "     6     0\n"),
        ("formula: `&` in a set", "     6 "),
        ("formula of about 40 nodes", "     8    41\n"),
        ("formula of about 40 nodes", "     8    42\n"),
        ("over 40 nodes", "     8    4"),
        ("over 40 nodes", "     8    5"),
        ("node without class", "     9     0\n"),
        ("node without class", "     9    1"),
        ("more rows than places", "    11  2"),
        ("more edges than places", "    12  6"),
    ] {
        answers(kind, number);
    }
}
