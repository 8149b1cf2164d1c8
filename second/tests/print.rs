//! What `explain` prints.

mod common;

use std::fs;

use common::M;
use second::print::{explain, explain_files, explain_folder};

fn printed(table: &str, formula: &str) -> String {
    String::from_utf8(explain_files(table.as_bytes(), formula.as_bytes())).expect("ASCII")
}

#[test]
fn a_refusal_is_one_line_of_number_and_figure() {
    assert_eq!(printed("", "T"), "     1     1\n");
    assert_eq!(printed(M, ""), "     6     0\n");
    assert_eq!(printed(M, "EX[a] T"), "     7     3\n");
    assert_eq!(printed(M, "T | ~T"), "     9     0\n");
}

#[test]
fn the_table_is_read_first() {
    assert_eq!(printed("x", "x"), "     1     1\n");
}

#[test]
fn one_line_end_of_the_formula_is_dropped() {
    assert_eq!(printed(M, "T\n"), printed(M, "T"));
    assert_eq!(printed(M, "T\n\n"), "     6     1\n");
    assert_eq!(printed(M, "\n"), "     6     0\n");
    let longest = format!("T|{}T", " ".repeat(509));
    assert_eq!(printed(M, &format!("{longest}\n")), printed(M, "T|T"));
    assert_eq!(printed(M, &format!("{longest}\n\n")), "     5   513\n");
}

#[test]
fn a_number_of_more_digits_takes_as_many_columns() {
    assert_eq!(printed(M, &"T".repeat(1_234_567)), "     51234567\n");
}

#[test]
fn a_verdict_that_nothing_explains_has_one_row() {
    let bare = "     1     2     1     0\n     0     0     0     0\n";
    assert_eq!(printed(M, "AX[req] T"), bare);
}

#[test]
fn more_than_1024_rows_or_4096_edges_are_refused() {
    let ring = |states: u32| {
        let steps = (0..states).map(|state| {
            let next = (state + 1) % states;
            format!("{state:>6}     0{next:>6}\n")
        });
        let header = format!("{states:>6}     0{states:>6}     0\n");
        header + &steps.collect::<String>()
    };
    let chain = |untils: usize| "EU[*] ".repeat(untils) + "T";
    assert!(printed(&ring(256), &chain(4)).starts_with("     1     1  1024  2560\n"));
    assert_eq!(printed(&ring(256), &chain(5)), "    11  1280\n");
    assert!(printed(&ring(128), &chain(7)).starts_with("     1     1   896  3584\n"));
    assert_eq!(printed(&ring(128), &chain(8)), "    12  4608\n");
}

#[test]
fn a_file_that_cannot_be_opened_counts_as_empty() {
    let folder = std::env::temp_dir().join(format!("second-print-{}", std::process::id()));
    fs::create_dir_all(&folder).expect("a folder for the test");
    assert_eq!(explain_folder(&folder), b"     1     1\n");
    fs::write(folder.join("table.txt"), M).expect("a table");
    assert_eq!(explain_folder(&folder), b"     6     0\n");
    fs::write(folder.join("formula.txt"), "EU[*;ack] T\n").expect("a formula");
    assert_eq!(explain_folder(&folder), explain(M.as_bytes(), b"EU[*;ack] T"));
    fs::remove_dir_all(&folder).expect("the folder of the test");
}
