//! Running the program finds faults: each of these programs is wrong in one thing.

mod common;

use std::cell::Cell;
use std::fs;
use std::path::{Path, PathBuf};
use std::process::{ExitStatus, Output};

use common::loops::{with_loops, without_lone_loops};
use second::inputs::folders::{WAYS, folder};
use second::print;
use second::program;
use second::table::{SILENT, Table};

const SEED: u64 = 11;
/// Enough for every kind to have several turns.
const COUNT: u64 = 900;

fn place(test: &str) -> PathBuf {
    std::env::temp_dir().join(format!("second-program-{}-{test}", std::process::id()))
}

fn says(stdout: Vec<u8>) -> Output {
    Output { status: ExitStatus::default(), stdout, stderr: Vec::new() }
}

/// What is told of a program that is wrong; the folder is kept, and removed here.
fn told(test: &str, wrong: impl Fn(&Path) -> Output) -> String {
    let place = place(test);
    let outcome = program::run(|folder| Ok(wrong(folder)), &place, SEED, COUNT);
    let told = outcome.expect_err(test);
    assert!(place.is_dir() && told.contains(&place.display().to_string()), "{told}");
    fs::remove_dir_all(&place).expect("the folder is kept");
    told
}

/// Of a program that reads its files otherwise.
fn told_of_files(test: &str, wrong: fn(Vec<u8>, Vec<u8>) -> Vec<u8>) -> String {
    told(test, |folder| {
        let read = |name: &str| fs::read(folder.join(name)).unwrap_or_default();
        says(wrong(read("table.txt"), read("formula.txt")))
    })
}

#[test]
fn a_right_program_is_not_blamed_and_leaves_no_folder() {
    let place = place("right");
    let right = |folder: &Path| Ok(says(print::explain_folder(folder)));
    let tally = program::run(right, &place, SEED, COUNT).expect("no difference");
    assert_eq!(tally.inputs, COUNT);
    assert!(!place.exists());
}

#[test]
fn a_byte_changed_in_any_one_kind_is_found() {
    for way in &WAYS {
        let index = Cell::new(0);
        let told = told("byte", |place| {
            let mut text = print::explain_folder(place);
            if folder(SEED, index.replace(index.get() + 1)).0.name == way.name {
                let middle = text.len() / 2;
                text[middle] ^= 1;
            }
            says(text)
        });
        assert!(told.contains(&format!("({})", way.name)), "{told}");
    }
}

#[test]
fn a_status_or_an_error_is_found() {
    let told_of_error = told("error", |folder| Output {
        stderr: b"no file".to_vec(),
        ..says(print::explain_folder(folder))
    });
    assert!(told_of_error.contains("standard error: 7 bytes \"no file\""), "{told_of_error}");
    let told_of_status = told("status", |folder| Output {
        status: std::os::unix::process::ExitStatusExt::from_raw(256),
        ..says(print::explain_folder(folder))
    });
    assert!(told_of_status.contains("exit status: 1"), "{told_of_status}");
}

#[test]
fn another_treatment_of_the_formulas_end_is_found() {
    told_of_files("no-end-dropped", |table, formula| print::explain(&table, &formula));
    told_of_files("each-end-dropped", |table, mut formula| {
        while formula.last() == Some(&b'\n') {
            formula.pop();
        }
        print::explain(&table, &formula)
    });
    told_of_files("return-dropped", |table, formula| {
        let formula = formula.strip_suffix(b"\n").unwrap_or(&formula);
        print::explain(&table, formula.strip_suffix(b"\r").unwrap_or(formula))
    });
}

#[test]
fn formulas_kept_only_in_part_are_found() {
    told_of_files("formula-cut-at-512", |table, mut formula| {
        formula.truncate(512);
        print::explain_files(&table, &formula)
    });
    told_of_files("formula-cut-at-514", |table, mut formula| {
        formula.truncate(514);
        print::explain_files(&table, &formula)
    });
    told_of_files("formula-cut-at-a-megabyte", |table, mut formula| {
        formula.truncate(1 << 20);
        print::explain_files(&table, &formula)
    });
    told_of_files("formula-before-table", |table, formula| match formula.len() {
        0..514 => print::explain_files(&table, &formula),
        _ => print::explain_files(b"     1     0     0     0\n", &formula),
    });
}

#[test]
fn tables_kept_only_in_part_are_found() {
    told_of_files("table-cut-at-20321", |mut table, formula| {
        table.truncate(20_321);
        print::explain_files(&table, &formula)
    });
    told_of_files("table-cut-at-20320", |mut table, formula| {
        table.truncate(20_320);
        print::explain_files(&table, &formula)
    });
    told_of_files("table-cut-at-20282", |mut table, formula| {
        table.truncate(20_282);
        print::explain_files(&table, &formula)
    });
    told_of_files("line-end-added", |mut table, formula| {
        if table.last() != Some(&b'\n') {
            table.push(b'\n');
        }
        print::explain_files(&table, &formula)
    });
    told_of_files("returns-dropped", |mut table, formula| {
        table.retain(|&byte| byte != b'\r');
        print::explain_files(&table, &formula)
    });
}

#[test]
fn one_place_too_few_is_found() {
    for counts in ["  1024  ", "  4096\n"] {
        told("places", |folder| {
            let text = print::explain_folder(folder);
            match str::from_utf8(&text[..text.len().min(25)]).expect("ASCII").contains(counts) {
                true => says(b"    11  1024\n".to_vec()),
                false => says(text),
            }
        });
    }
}

#[test]
fn a_missing_file_told_otherwise_is_found() {
    for name in ["table.txt", "formula.txt"] {
        for kind in [|path: &Path| !path.exists(), |path: &Path| path.is_dir()] {
            told("missing", |folder| match kind(&folder.join(name)) {
                true => says(Vec::new()),
                false => says(print::explain_folder(folder)),
            });
        }
    }
}

#[test]
fn another_label_of_idle_steps_or_lone_silent_loops_is_found() {
    fn explained(text: &[u8], formula: &[u8], other: fn(&Table) -> Option<Table>) -> Vec<u8> {
        let other = Table::read(text).ok().and_then(|table| other(&table));
        print::explain_files(&other.map_or(text.to_vec(), |table| table.text()), formula)
    }
    told_of_files("idle-as-silent", |table, formula| {
        explained(&table, &formula, |table| with_loops(table, SILENT))
    });
    told_of_files("silent-as-idle", |table, formula| {
        explained(&table, &formula, |table| Some(without_lone_loops(table)))
    });
}
