//! Asking for combined tables finds faults: each of these programs and scripts is wrong in one thing.

use std::collections::BTreeSet;
use std::fs;
use std::os::unix::process::ExitStatusExt;
use std::path::{Path, PathBuf};
use std::process::{ExitStatus, Output};

use second::columns::{COLUMNS, write_line};
use second::print_combined::{self, Asked, Refused, combined, line, printed};
use second::reply::{Refusal, Reply};
use second::table::{MAX_LABELS, Step, Table};

/// As in .ci/second.
const SEED: u64 = 1;
const COUNT: u64 = 3_000;

fn place(test: &str) -> PathBuf {
    std::env::temp_dir().join(format!("second-print-combined-{}-{test}", std::process::id()))
}

fn says(code: i32, stdout: Vec<u8>, stderr: &[u8]) -> Output {
    Output { status: ExitStatus::from_raw(code << 8), stdout, stderr: stderr.to_vec() }
}

/// What the two files hold.
type Files = [Vec<u8>; 2];

fn files_in(folder: &Path) -> Files {
    ["first.txt", "second.txt"].map(|name| fs::read(folder.join(name)).unwrap_or_default())
}

/// The words of a script that is right.
fn words(refused: &Refused) -> String {
    let Reply { number, figure } = refused.refusal.into();
    match refused.file {
        0 => format!("explain: refused ({number}): the combined table has {figure} of them\n"),
        file => {
            let name = ["first.txt", "second.txt"][file - 1];
            format!("explain: refused ({number}): {name}, line {figure}: it is wrong\n")
        }
    }
}

fn script([first, second]: &Files) -> Output {
    match combined(first, second) {
        Ok(table) => says(0, table.text(), b""),
        Err(refused) => says(1, Vec::new(), words(&refused).as_bytes()),
    }
}

#[test]
fn a_right_program_is_not_blamed_and_leaves_no_folder() {
    let place = place("right");
    let print = |folder: &Path| {
        let [first, second] = files_in(folder);
        Ok(says(0, printed(&first, &second), b""))
    };
    let tally = print_combined::run(Asked::Program, print, &place, SEED, COUNT);
    let tally = tally.expect("no difference");
    assert_eq!(tally.inputs, COUNT);
    assert_eq!(print_combined::missing(&tally), [""; 0]);
    assert!(!place.exists());
}

#[test]
fn a_right_script_is_not_blamed() {
    let explain = |folder: &Path| Ok(script(&files_in(folder)));
    let tally = print_combined::run(Asked::Script, explain, &place("right script"), SEED, COUNT);
    assert_eq!(tally.expect("no difference").inputs, COUNT);
}

/// A wrong program or script is told; the folder is kept, and removed here.
fn is_found(asked: Asked, test: &str, wrong: impl Fn(&Files) -> Output) {
    let place = place(test);
    let output = |folder: &Path| Ok(wrong(&files_in(folder)));
    let told = print_combined::run(asked, output, &place, SEED, COUNT).expect_err(test);
    assert!(
        told.contains(&place.display().to_string()) && told.contains("\nfirst.txt: "),
        "{told}"
    );
    println!("{test}: {}", told.split(" of ").next().unwrap_or_default());
    fs::remove_dir_all(&place).expect("the folder is kept");
}

fn prints(test: &str, wrong: impl Fn(&[u8], &[u8]) -> Vec<u8>) {
    is_found(Asked::Program, test, |[first, second]| says(0, wrong(first, second), b""));
}

#[test]
fn files_read_otherwise_are_found() {
    prints("the files are exchanged", |first, second| printed(second, first));
    prints("the first twice", |first, _| printed(first, first));
    prints("the second twice", |_, second| printed(second, second));
    prints("the second is read first", |first, second| match Table::read(second) {
        Err(refusal) => line(&Refused { refusal, file: 2 }),
        Ok(_) => printed(first, second),
    });
    let cut = |text: &[u8], length: usize| text[..text.len().min(length)].to_vec();
    for length in [20_320, 20_321] {
        prints(&format!("the first is cut at {length} bytes"), |first, second| {
            printed(&cut(first, length), second)
        });
        prints(&format!("the second is cut at {length} bytes"), |first, second| {
            printed(first, &cut(second, length))
        });
    }
    let or_one = |text: &[u8]| match text {
        [] => b"     1     0     0     0\n".to_vec(),
        _ => text.to_vec(),
    };
    prints("an empty file is a table of one state", |first, second| {
        printed(&or_one(first), &or_one(second))
    });
}

/// Another line for each refusal.
fn refuses(test: &str, wrong: impl Fn(&Refused, Reply) -> Vec<u8>) {
    prints(test, |first, second| match combined(first, second) {
        Ok(table) => table.text(),
        Err(refused) => wrong(&refused, refused.refusal.into()),
    });
}

fn numbers(numbers: &[u64]) -> Vec<u8> {
    let mut text = Vec::new();
    write_line(numbers, &mut text);
    text
}

#[test]
fn other_refusals_are_found() {
    refuses("the file is left out", |_, Reply { number, figure }| {
        numbers(&[number.into(), figure])
    });
    refuses("the file comes before the figure", |refused, Reply { number, figure }| {
        numbers(&[number.into(), refused.file as u64, figure])
    });
    refuses("the figure comes first", |refused, Reply { number, figure }| {
        numbers(&[figure, number.into(), refused.file as u64])
    });
    for (test, files) in [
        ("files from 0", [2, 0, 1]),
        ("always the first", [0, 1, 1]),
        ("never a file", [0, 0, 0]),
        ("both together are the second", [2, 1, 2]),
    ] {
        refuses(test, |refused, Reply { number, figure }| {
            numbers(&[number.into(), figure, files[refused.file]])
        });
    }
    refuses("lines from 0", |refused, Reply { number, figure }| {
        let figure = if refused.file > 0 { figure - 1 } else { figure };
        numbers(&[number.into(), figure, refused.file as u64])
    });
    refuses("five columns of the figure", |refused, Reply { number, figure }| {
        numbers(&[number.into(), figure % 100_000, refused.file as u64])
    });
    refuses("two bytes of the figure", |refused, Reply { number, figure }| {
        numbers(&[number.into(), figure % 65_536, refused.file as u64])
    });
    refuses("no LF", |refused, _| line(refused)[..3 * COLUMNS].to_vec());
}

/// By these names in place of the table's, some of which may be gone with their transitions.
fn renamed(table: &Table, names: &[Vec<u8>], name: impl Fn(&[u8]) -> Vec<u8>) -> Table {
    let label = |label: u8| match label {
        0 => Some(0),
        _ => {
            let name = name(&table.names[usize::from(label) - 1]);
            names.iter().position(|known| *known == name).map(|at| at as u8 + 1)
        }
    };
    let steps = table
        .transitions
        .iter()
        .filter_map(|step| Some(Step { label: label(step.label)?, ..*step }));
    let steps: BTreeSet<Step> = steps.collect();
    Table { names: names.to_vec(), transitions: steps.into_iter().collect(), ..table.clone() }
}

/// Without the labels that are on no transition.
fn without_unused(table: &Table) -> Table {
    let is_used = |label: u8| table.transitions.iter().any(|step| step.label == label);
    let names = table.names.iter().zip(1..).filter(|&(_, label)| is_used(label));
    let names: Vec<Vec<u8>> = names.map(|(name, _)| name.clone()).collect();
    renamed(table, &names, <[u8]>::to_vec)
}

/// Another table for each that is printed.
fn combines(test: &str, wrong: impl Fn(&Table, &Table, Table) -> Table) {
    prints(test, |first, second| match combined(first, second) {
        Ok(table) => {
            let [first, second] = [first, second].map(|text| Table::read(text).expect("a table"));
            wrong(&first, &second, table).text()
        }
        Err(refused) => line(&refused),
    });
}

fn again(first: &Table, second: &Table, or: Table) -> Table {
    combined(&first.text(), &second.text()).unwrap_or(or)
}

#[test]
fn other_tables_are_found() {
    combines("`n?` for a joined pair", |first, second, table| {
        let is_joint = |name: &[u8]| {
            let both = [first, second].map(|table| {
                ["!", "?"].map(|mark| {
                    table.label(&[&name[..name.len() - 1], mark.as_bytes()].concat()).is_some()
                })
            });
            name.ends_with(b"!") && (both[0][0] && both[1][1] || both[0][1] && both[1][0])
        };
        let name = |name: &[u8]| match is_joint(name) {
            true => [&name[..name.len() - 1], b"?"].concat(),
            false => name.to_vec(),
        };
        let names: BTreeSet<Vec<u8>> = table.names.iter().map(|known| name(known)).collect();
        renamed(&table, &Vec::from_iter(names), name)
    });
    combines(
        "a joined label moves alone where its partner is on no transition",
        |first, second, table| {
            let names = &table.names;
            let table = again(&without_unused(first), &without_unused(second), table.clone());
            renamed(&table, names, |name| match names.iter().any(|known| known == name) {
                true => name.to_vec(),
                false => [&name[..name.len() - 1], b"!"].concat(),
            })
        },
    );
    combines("an unused label is dropped", |_, _, table| without_unused(&table));
    combines("shorter names come first", |_, _, table| {
        let mut names = table.names.clone();
        names.sort_by_key(|name| (name.len(), name.clone()));
        renamed(&table, &names, <[u8]>::to_vec)
    });
    combines("marks come behind letters", |_, _, table| {
        let mut names = table.names.clone();
        let behind = |byte: &u8| if b"!?".contains(byte) { 255 } else { *byte };
        names.sort_by_key(|name| name.iter().map(behind).collect::<Vec<u8>>());
        renamed(&table, &names, <[u8]>::to_vec)
    });
    combines("the pairs are counted the other way round", |first, second, table| {
        let pair = |pair: u8| {
            let (i, j) = (usize::from(pair) / second.states, usize::from(pair) % second.states);
            (i + j * first.states) as u8
        };
        let steps = table.transitions.iter().map(|step| Step {
            from: pair(step.from),
            label: step.label,
            to: pair(step.to),
        });
        let steps: BTreeSet<Step> = steps.collect();
        Table { start: pair(table.start), transitions: steps.into_iter().collect(), ..table }
    });
    combines("the second's start", |_, second, table| Table { start: second.start, ..table });
    combines("the first's start", |first, _, table| Table { start: first.start, ..table });
    combines("silent steps are lost", |_, _, mut table| {
        table.transitions.retain(|step| step.label > 0);
        table
    });
    combines("the last transition of 1,024 is lost", |_, _, mut table| {
        table.transitions.truncate(1_023);
        table
    });
    combines("the last transition stands twice", |_, _, mut table| {
        if let [.., last] = table.transitions[..] {
            table.transitions.push(last);
        }
        table
    });
}

#[test]
fn other_limits_are_found() {
    prints("labels are counted before pairs", |first, second| {
        let one = |text: &[u8]| {
            let table = Table::read(text).ok()?;
            Some(Table { states: 1, start: 0, transitions: Vec::new(), ..table }.text())
        };
        match (one(first), one(second)) {
            (Some(first), Some(second)) if combined(&first, &second).is_err() => {
                printed(&first, &second)
            }
            _ => printed(first, second),
        }
    });
    for (test, limit) in [
        ("255 pairs at most", Refusal::PairCount(256)),
        ("39 labels at most", Refusal::LabelCount(MAX_LABELS)),
        ("1,023 transitions at most", Refusal::TransitionCount(1_024)),
    ] {
        prints(test, |first, second| match combined(first, second) {
            Ok(table) => {
                let counts = [
                    Refusal::PairCount(table.states),
                    Refusal::LabelCount(table.labels()),
                    Refusal::TransitionCount(table.transitions.len()),
                ];
                match counts.contains(&limit) {
                    true => line(&Refused { refusal: limit, file: 0 }),
                    false => table.text(),
                }
            }
            Err(refused) => line(&refused),
        });
    }
}

#[test]
fn other_ways_to_answer_are_found() {
    let right = |files: &Files| says(0, printed(&files[0], &files[1]), b"");
    is_found(Asked::Program, "another status", |files| Output {
        status: ExitStatus::from_raw(256),
        ..right(files)
    });
    is_found(Asked::Program, "something said", |files| Output {
        stderr: b"no table".to_vec(),
        ..right(files)
    });
    is_found(Asked::Program, "refused with another status", |files| {
        let refused = combined(&files[0], &files[1]).is_err();
        says(refused.into(), printed(&files[0], &files[1]), b"")
    });
}

/// Of a script that tells refusals in these words.
fn tells(test: &str, wrong: impl Fn(&Refused, String) -> String) {
    is_found(Asked::Script, test, |files| match combined(&files[0], &files[1]) {
        Ok(_) => script(files),
        Err(refused) => says(1, Vec::new(), wrong(&refused, words(&refused)).as_bytes()),
    });
}

#[test]
fn faults_of_the_script_are_found() {
    tells("nothing is told", |_, _| String::new());
    tells("the other file is named", |refused, right| match refused.file {
        1 => right.replace("first", "second"),
        _ => right.replace("second", "first"),
    });
    tells("a file is named where none is wrong", |_, right| {
        right.replace("the combined table", "first.txt")
    });
    tells("another number", |_, right| right.replace("(19)", "(18)"));
    tells("the figure with the file behind it", |refused, right| {
        let Reply { figure, .. } = refused.refusal.into();
        right
            .replace(&format!(" {figure} "), &format!(" {figure}     0 "))
            .replace(&format!("line {figure}"), &format!("line {figure}{}", refused.file))
    });
    tells("five digits of the figure", |refused, right| {
        let Reply { figure, .. } = refused.refusal.into();
        right.replace(&format!("has {figure}"), &format!("has {}", figure % 100_000))
    });
    is_found(Asked::Script, "a refusal's line is printed", |files| {
        let output = script(files);
        match output.status.success() {
            true => output,
            false => Output { stdout: printed(&files[0], &files[1]), ..output },
        }
    });
    is_found(Asked::Script, "a refusal is an answer", |files| Output {
        status: ExitStatus::default(),
        ..script(files)
    });
    is_found(Asked::Script, "the last LF is lost", |files| {
        let Output { status, mut stdout, stderr } = script(files);
        stdout.pop();
        Output { status, stdout, stderr }
    });
    is_found(Asked::Script, "a short table is taken for a refusal", |files| match script(files) {
        Output { stdout, .. } if stdout.len() == 25 => {
            says(1, Vec::new(), b"explain: refused (1)\n")
        }
        output => output,
    });
}
