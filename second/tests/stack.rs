//! What each call takes of the stack: the figures of explainer.h hold, on the inputs that take most.
#![cfg(feature = "library")]

mod common;

use std::process::{Command, ExitStatus};

use common::header::defines;
use second::compare::{
    Accepts, Build, Case, Combine, Explain, Lent, ReadFormula, ReadTable, Smallest, TableText,
    Verdict, Verdicts, WriteFormula,
};
use second::entries::{EDGE_PLACE, ROW_PLACE};
use second::formula::{Formula, MAX_BYTES};
use second::fuzz;
use second::inputs::questions::Question;
use second::inputs::questions::longest_listing;
use second::inputs::rng::Rng;
use second::inputs::tables::longest_table;
use second::inputs::{pairs, sets, written};
use second::interface::INTERFACE;
use second::link::library;
use second::link::stack::{PAGE, Stack};
use second::prepared::{self, FORMULA_LENGTH, TABLE_LENGTH};
use second::smallest::{SMALLEST_LENGTH, WORK_LENGTH};
use second::table::{MAX_STATES, MAX_TEXT, Table};

/// More than any call takes.
const PLENTY: usize = 1 << 20;
const RANDOM: u64 = 200;

type Call = Box<dyn FnMut()>;

fn call(case: impl Case + 'static) -> Call {
    Box::new(move || drop(case.answer(&library())))
}

fn lent(length: usize) -> Lent {
    Lent { length, fill: 1 }
}

fn small_table() -> Table {
    Table::read(common::M.as_bytes()).expect("a table")
}

/// Brackets, heads and short forms within each other, as deep as 512 bytes allow, over table M.
fn deep_texts() -> Vec<Vec<u8>> {
    let mut texts = Vec::new();
    for unit in [
        "(", "~", "EX[.]", "EU[*]", "~(", "EX[*](", "T|(", "AG", "EF", "DIA[*]", "BOX[*]", "AG(",
        "EF(", "BOX[*](", "T&", "T&(", "AGT&(", "T|T&(",
    ] {
        texts.push(unit.repeat(MAX_BYTES / unit.len()));
        for end in [
            "T",
            "EX[req] T",
            "EU[~req;ack] T",
            "AX[req|(ack|~(*))] T",
            "EX[",
            "EX[nothere] T",
            "EX[~(req!|?)] T",
            "EU[?|!;~?] T",
            "BOX[~(req|ack)] T",
            "DIA[.",
            "T&T",
            ")",
        ] {
            texts.push(unit.repeat((MAX_BYTES - end.len()) / unit.len()) + end);
            let closed = unit.repeat((MAX_BYTES - end.len()) / (unit.len() + 1)) + end;
            let brackets = closed.matches('(').count() - end.matches('(').count();
            texts.push(closed + &")".repeat(brackets));
        }
    }
    for head in ["EX[", "AX[", "EU[", "EU[*;", "DIA[", "BOX["] {
        for outside in [0, 64, 128, 256, 384, 448, 500] {
            for unit in ["(", "~", "~(", "*|(", "?|(", "?|"] {
                let begin = "(".repeat(outside) + head;
                let inside = unit.repeat((MAX_BYTES - begin.len()) / unit.len());
                texts.push(begin + &inside);
            }
        }
    }
    texts.into_iter().map(String::into_bytes).collect()
}

/// A name of each length, which is compared to its end where brackets and heads are deepest.
fn deep_lookups() -> (Vec<u8>, Vec<Vec<u8>>) {
    let name = |length: usize| match length {
        13 => b"abcdefghijkl?".to_vec(),
        _ => b"abcdefghijkl"[..length].to_vec(),
    };
    let names: Vec<Vec<u8>> = (1..=13).map(name).collect();
    let text = |name: &[u8], unit: &str| {
        let end = [b"EX[(~".as_slice(), name, b")] T"].concat();
        [unit.repeat((MAX_BYTES - end.len()) / unit.len()).into_bytes(), end].concat()
    };
    let units = ["(", "~", "~(", "EX[*](", "T|(", "BOX[*](", "AGT&("];
    let texts = names.iter().flat_map(|name| units.map(|unit| text(name, unit))).collect();
    (prepared::table_bytes(&Table { names, ..small_table() }), texts)
}

/// The longest listing; forty nodes within each other or side by side.
fn large_questions() -> Vec<Question> {
    let mut questions = vec![longest_listing(&mut Rng::new(3))];
    let sides = ["EX[*] T"; 13].join(" | ");
    let boxes = "BOX[*]".repeat(12) + "~~~T";
    for text in ["~".repeat(39) + "T", "EX[.]".repeat(39) + "T", boxes, sides] {
        let table = longest_table(&mut Rng::new(4));
        let formula = Formula::read(&table, text.as_bytes()).expect("a formula");
        questions.push(Question { table, formula });
    }
    questions
}

/// Forty nodes, `|` within each other at either side and below others; texts at the limit and the
/// longest.
fn questions_to_write() -> Vec<Question> {
    let nested = |unit: &str, times: usize| {
        let open = unit.matches('(').count() - unit.matches(')').count();
        [unit.repeat(times), "T".into(), ")".repeat(times * open)].concat()
    };
    let texts = [
        ["T"; 20].join("|"),
        nested("T|(", 19),
        nested("EX[.](T|", 13),
        nested("EU[*](T|", 13),
        nested("~~(T|", 9),
        nested("EX[.]((T|T)|", 7),
    ];
    let read = |text: String| {
        let table = longest_table(&mut Rng::new(4));
        let formula = Formula::read(&table, text.as_bytes()).expect("a formula");
        Question { table, formula }
    };
    let lengths =
        [MAX_BYTES, MAX_BYTES + 1].map(|length| written::of_length(&mut Rng::new(5), length));
    let longest = written::longest(&mut Rng::new(6));
    let questions = texts.into_iter().map(read).chain(lengths).chain([longest]);
    questions.chain(large_questions()).collect()
}

fn prepared_bytes(question: &Question) -> (Vec<u8>, Vec<u8>) {
    (prepared::table_bytes(&question.table), prepared::formula_bytes(&question.formula))
}

/// Places for any listing of [`large_questions`].
const ROWS: usize = 10_496 * ROW_PLACE;
const EDGES: usize = 1_000_000 * EDGE_PLACE;

fn explain(table_text: Vec<u8>, formula_text: Vec<u8>, [rows, edges]: [usize; 2]) -> Call {
    let (table, formula) = (lent(TABLE_LENGTH), lent(FORMULA_LENGTH));
    let (rows, edges) = (lent(rows), lent(edges));
    call(Explain { table_text, formula_text, table, formula, rows, edges })
}

/// The calls of an entry that take most, then random ones.
fn calls(entry: &str) -> Vec<Call> {
    let random = |seed: u64| (0..RANDOM).map(move |index| Rng::of_input(seed, "stack", index));
    let large = large_questions();
    let large = large.iter().map(prepared_bytes);
    let texts = deep_texts().into_iter();
    let mut calls: Vec<Call> = Vec::new();
    match entry {
        "read_table" => {
            let text = longest_table(&mut Rng::new(5)).text();
            calls.push(call(ReadTable { text, table: lent(TABLE_LENGTH) }));
            calls.extend(random(1).map(|mut rng| call(fuzz::read_table(&mut rng).case)));
        }
        "table_text" => {
            let table = prepared::table_bytes(&longest_table(&mut Rng::new(5)));
            calls.push(call(TableText { table, text: lent(MAX_TEXT) }));
            calls.extend(random(9).map(|mut rng| call(fuzz::table_text(&mut rng).case)));
        }
        "combine" => {
            let rng = &mut Rng::new(6);
            calls.extend((0..4).map(|_| {
                let [first, second] =
                    pairs::of_most(rng).map(|table| prepared::table_bytes(&table));
                call(Combine { first, second, combined: lent(TABLE_LENGTH) })
            }));
            calls.extend(random(10).map(|mut rng| call(fuzz::combine(&mut rng).case)));
        }
        "read_formula" => {
            let table = prepared::table_bytes(&small_table());
            let formula = lent(FORMULA_LENGTH);
            calls.extend(
                texts.map(|text| call(ReadFormula { table: table.clone(), text, formula })),
            );
            let (table, texts) = deep_lookups();
            let texts = texts.into_iter();
            calls.extend(
                texts.map(|text| call(ReadFormula { table: table.clone(), text, formula })),
            );
            calls.extend(random(2).map(|mut rng| call(fuzz::read_formula(&mut rng).case)));
        }
        "write_formula" => {
            let text = lent(MAX_BYTES);
            let questions = questions_to_write();
            let questions = questions.iter().map(prepared_bytes);
            calls.extend(
                questions.map(|(table, formula)| call(WriteFormula { table, formula, text })),
            );
            calls.extend(random(7).map(|mut rng| call(fuzz::write_formula(&mut rng).case)));
        }
        "verdict" => {
            calls.extend(large.map(|(table, formula)| call(Verdict { table, formula })));
            calls.extend(random(3).map(|mut rng| call(fuzz::verdict(&mut rng).case)));
        }
        "verdicts" => {
            let (starts, answers) = ((0..=u8::MAX).collect::<Vec<_>>(), lent(MAX_STATES));
            calls.extend(large.map(|(table, formula)| {
                call(Verdicts { table, formula, starts: starts.clone(), answers })
            }));
            calls.extend(random(8).map(|mut rng| call(fuzz::verdicts(&mut rng).case)));
        }
        "build" => {
            let (rows, edges) = (lent(ROWS), lent(EDGES));
            calls.extend(large.map(|(table, formula)| call(Build { table, formula, rows, edges })));
            calls.extend(random(4).map(|mut rng| call(fuzz::build(&mut rng).case)));
        }
        "smallest" => {
            let rng = &mut Rng::new(7);
            let most = [sets::longest_listing, sets::of_most_states, sets::of_most_rounds]
                .map(|most| most(rng));
            let (rows, edges) = (lent(ROWS), lent(EDGES));
            let (smallest, work) = (lent(SMALLEST_LENGTH), lent(WORK_LENGTH));
            calls.extend(most.iter().map(prepared_bytes).chain(large).map(|(table, formula)| {
                call(Smallest { table, formula, rows, edges, smallest, work })
            }));
            calls.extend(random(11).map(|mut rng| call(fuzz::smallest(&mut rng).case)));
        }
        "accepts" => {
            let word = vec![1; 1_024];
            calls.extend(
                large.map(|(table, formula)| call(Accepts { table, formula, word: word.clone() })),
            );
            calls.extend(random(5).map(|mut rng| call(fuzz::accepts(&mut rng).case)));
        }
        "explain" => {
            let longest = longest_listing(&mut Rng::new(3)).table.text();
            let untils = "EU[*]".repeat(39) + "T";
            calls.push(explain(longest, untils.into(), [ROWS, EDGES]));
            calls.extend(texts.map(|text| explain(common::M.into(), text, [3_072, 20_480])));
            calls.extend(random(6).map(|mut rng| call(fuzz::explain(&mut rng).case)));
        }
        _ => panic!("no inputs that take much stack are known of {entry}"),
    }
    calls
}

fn stated(entry: &str) -> usize {
    let name = format!("EXPLAINER_{}_STACK", entry.to_uppercase());
    let stated = defines().into_iter().find(|(define, _)| *define == name);
    stated.unwrap_or_else(|| panic!("explainer.h has no {name}")).1 as usize
}

fn depth(entry: &str) -> usize {
    let mut stack = Stack::new(PLENTY);
    calls(entry).iter_mut().map(|call| stack.depth(call)).max().expect("some calls")
}

/// All calls of the entry in a process of their own, on a stack of so many bytes.
fn in_a_process(entry: &str, size: usize) -> ExitStatus {
    let mut child = Command::new(std::env::current_exe().expect("this test"));
    child.args(["--ignored", "--exact", "calls_on_a_stack_of_a_size"]);
    child.env("STACK_ENTRY", entry).env("STACK_SIZE", size.to_string());
    child.output().expect("the test runs").status
}

#[test]
#[ignore = "run by the others, in a process of its own"]
fn calls_on_a_stack_of_a_size() {
    let value = |name: &str| std::env::var(name).expect("the others say it");
    let mut stack = Stack::new(value("STACK_SIZE").parse().expect("a size"));
    for call in calls(&value("STACK_ENTRY")).iter_mut() {
        stack.run(call);
    }
}

/// And on half of what they take they do not pass.
#[test]
fn each_entry_keeps_to_the_stack_that_the_header_states() {
    for row in INTERFACE {
        let (entry, stated) = (row.entry, stated(row.entry));
        let taken = depth(entry);
        println!("stack: {entry} takes {taken} bytes, {stated} are stated");
        assert!(taken <= stated, "{entry} takes {taken} bytes, and {stated} are stated");
        let status = in_a_process(entry, stated);
        assert!(status.success(), "{entry} on {stated} bytes: {status}");
        let half = taken / 2 / PAGE * PAGE;
        let status = in_a_process(entry, half);
        assert!(status.code().is_none(), "{entry} on {half} bytes: {status}");
    }
}
