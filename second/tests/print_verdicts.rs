//! Running the program `print_verdicts` finds faults: each of these programs is wrong in one thing.

use std::fs;
use std::path::{Path, PathBuf};
use std::process::{ExitStatus, Output};

use second::columns::{self, COLUMNS};
use second::print::{self, files_in};
use second::print_verdicts;
use second::starts::printed;
use second::table::Table;

/// As in .ci/second.
const SEED: u64 = 1;
const COUNT: u64 = 3_000;

fn place(test: &str) -> PathBuf {
    std::env::temp_dir().join(format!("second-print-verdicts-{}-{test}", std::process::id()))
}

fn says(stdout: Vec<u8>) -> Output {
    Output { status: ExitStatus::default(), stdout, stderr: Vec::new() }
}

fn right(folder: &Path, list: &[u8]) -> Vec<u8> {
    let [table, formula] = files_in(folder);
    printed(&table, &formula, list)
}

#[test]
fn a_right_program_is_not_blamed_and_leaves_no_folder() {
    let place = place("right");
    let print = |folder: &Path, list: &[u8]| Ok(says(right(folder, list)));
    let tally = print_verdicts::run(print, &place, SEED, COUNT).expect("no difference");
    assert_eq!(tally.inputs, COUNT);
    assert_eq!(print_verdicts::missing(&tally), [""; 0]);
    assert!(!place.exists());
}

/// What is told of a program that is wrong; the folder is kept, and removed here.
fn told(test: &str, wrong: impl Fn(&Path, &[u8]) -> Output) -> String {
    let place = place(test);
    let print = |folder: &Path, list: &[u8]| Ok(wrong(folder, list));
    let told = print_verdicts::run(print, &place, SEED, COUNT).expect_err(test);
    assert!(told.contains(&place.display().to_string()) && told.contains("\nlist: "), "{told}");
    println!("{test}: {}", told.split(" of ").next().unwrap_or_default());
    fs::remove_dir_all(&place).expect("the folder is kept");
    told
}

/// Of a program that reads its list as another.
fn told_of_list(test: &str, other: impl Fn(&[u8]) -> Vec<u8>) {
    told(test, |folder, list| says(right(folder, &other(list))));
}

/// Each entry, or what is read in its place.
fn each(list: &[u8], change: impl Fn(&[u8]) -> Vec<u8>) -> Vec<u8> {
    list.chunks(COLUMNS).flat_map(change).collect()
}

fn column(number: u64) -> Vec<u8> {
    let mut text = Vec::new();
    columns::write(number, &mut text);
    text
}

#[test]
fn lists_read_otherwise_are_found() {
    told_of_list("cut at 256 entries", |list| list[..list.len().min(1_536)].to_vec());
    told_of_list("cut at 255 entries", |list| list[..list.len().min(1_530)].to_vec());
    told_of_list("the first piece alone", |list| list[..list.len() / 2].to_vec());
    told_of_list("a rest is dropped", |list| list[..list.len() / COLUMNS * COLUMNS].to_vec());
    told_of_list("LF at the end is dropped", |list| {
        list.strip_suffix(b"\n").unwrap_or(list).to_vec()
    });
    told_of_list("zeros are blanks", |list| {
        each(list, |entry| {
            let number =
                str::from_utf8(entry).ok().and_then(|entry| entry.trim_start().parse().ok());
            number.map_or(entry.to_vec(), column)
        })
    });
    told_of_list("blanks may stand behind", |list| {
        each(list, |entry| {
            let number = str::from_utf8(entry).ok().and_then(|entry| entry.trim_end().parse().ok());
            number.map_or(entry.to_vec(), column)
        })
    });
    told_of_list("blanks are 0", |list| {
        each(list, |entry| if entry == b"      " { column(0) } else { entry.to_vec() })
    });
    told_of_list("only the low byte is looked at", |list| {
        each(list, |entry| {
            columns::read(entry).map_or(entry.to_vec(), |of| column((of % 256).into()))
        })
    });
    told_of_list("only two bytes are looked at", |list| {
        each(list, |entry| {
            columns::read(entry).map_or(entry.to_vec(), |of| column((of % 65_536).into()))
        })
    });
    told_of_list("sorted, each once", |list| {
        let mut entries: Vec<&[u8]> = list.chunks(COLUMNS).collect();
        entries.sort();
        entries.dedup();
        entries.concat()
    });
    told_of_list("each once", |list| {
        let mut entries: Vec<&[u8]> = list.chunks(COLUMNS).collect();
        entries.dedup();
        entries.concat()
    });
}

/// Whether these are verdicts of some states.
fn are_some(text: &[u8]) -> bool {
    text.iter().filter(|&&byte| byte == b'\n').count() > 1
}

#[test]
fn other_answers_are_found() {
    told("the table's start", |folder, list| {
        let [table, formula] = files_in(folder);
        let text = right(folder, list);
        let start = Table::read(&table).map_or(0, |table| table.start);
        let verdict = printed(&table, &formula, &column(start.into()));
        match are_some(&text) {
            true => says([&text[..text.len() - 2], &verdict[verdict.len() - 2..]].concat()),
            false => says(text),
        }
    });
    told("no state is refused", |folder, list| match right(folder, list) {
        text if text == b"     1     0\n" => says(b"    16     0\n".to_vec()),
        text => says(text),
    });
    told("it holds at no state", |folder, list| match right(folder, list) {
        text if text == b"     1     0\n" => says(b"     0     0\n".to_vec()),
        text => says(text),
    });
    told("the index from 1", |folder, list| {
        let text = right(folder, list);
        match text.strip_prefix(b"    16").and_then(|rest| columns::read(&rest[..COLUMNS])) {
            Some(index) => {
                says([b"    16".to_vec(), column(u64::from(index) + 1), b"\n".to_vec()].concat())
            }
            None => says(text),
        }
    });
    told("the list before the formula", |folder, list| {
        let [table, formula] = files_in(folder);
        let of_list = printed(&table, b"T", list);
        match of_list.starts_with(b"    16") {
            true => says(of_list),
            false => says(printed(&table, &formula, list)),
        }
    });
    told("the listing is built", |folder, list| match print::explain_folder(folder) {
        refused if refused.starts_with(b"    11") || refused.starts_with(b"    12") => {
            says(refused)
        }
        _ => says(right(folder, list)),
    });
    told("another status", |folder, list| Output {
        status: std::os::unix::process::ExitStatusExt::from_raw(256),
        ..says(right(folder, list))
    });
    told("something said", |folder, list| Output {
        stderr: b"no list".to_vec(),
        ..says(right(folder, list))
    });
}
