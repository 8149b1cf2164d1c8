//! The stored digests: of the same inputs, with every refusal among the answers, and no change of
//! an answer passes.

mod common;

use std::collections::BTreeSet;
use std::path::PathBuf;

use common::loops::with_loops;
use second::digests::answers::Explainer;
use second::digests::{
    self, BASE, COMBINED, Corpus, IDLE, MARKS, NAMES, SHORT, SMALLEST, STARTS, WRITTEN, difference,
};
use second::entries::{self, Entries, SECOND};
use second::prepared;
use second::reply::Reply;
use second::table::SILENT;

/// Each corpus and its stored lines.
fn stored() -> [(Corpus, Vec<&'static str>); 9] {
    let lines = |file: &'static str| file.lines().filter(|line| !line.starts_with('#')).collect();
    let base = lines(include_str!("../corpus/base.txt"));
    let marks = lines(include_str!("../corpus/marks.txt"));
    let short = lines(include_str!("../corpus/short.txt"));
    let idle = lines(include_str!("../corpus/idle.txt"));
    let written = lines(include_str!("../corpus/written.txt"));
    let names = lines(include_str!("../corpus/names.txt"));
    let starts = lines(include_str!("../corpus/starts.txt"));
    let combined = lines(include_str!("../corpus/combined.txt"));
    let smallest = lines(include_str!("../corpus/smallest.txt"));
    [
        (BASE, base),
        (MARKS, marks),
        (SHORT, short),
        (IDLE, idle),
        (WRITTEN, written),
        (NAMES, names),
        (STARTS, starts),
        (COMBINED, combined),
        (SMALLEST, smallest),
    ]
}

fn explainer(entries: Entries) -> Explainer {
    Explainer { entries, program: PathBuf::new(), place: PathBuf::new() }
}

/// One line for each input of a kind.
fn each(entries: Entries, corpus: &Corpus, entry: &str, name: &str) -> Vec<String> {
    let mut lines = Vec::new();
    let kind = corpus.kind(entry, name).expect("a kind");
    digests::each(&explainer(entries), &kind, |line| lines.push(line)).expect("all entries");
    lines
}

/// The inputs of a kind to which two explainers' digests differ.
fn differing_in(corpus: &Corpus, entries: Entries, entry: &str, name: &str) -> usize {
    let [right, other] = [SECOND, entries].map(|entries| each(entries, corpus, entry, name));
    let digest = |line: &str| line[line.len() - 64..].to_owned();
    right.iter().zip(&other).filter(|(right, other)| digest(right) != digest(other)).count()
}

/// In the corpus `base`.
fn differing(entries: Entries, entry: &str, name: &str) -> usize {
    differing_in(&BASE, entries, entry, name)
}

#[test]
fn the_inputs_are_those_of_the_stored_digests() {
    for (corpus, lines) in stored() {
        assert_eq!(digests::inputs_line(&corpus), lines[0], "{}", corpus.name);
    }
}

#[test]
fn the_second_explainer_has_the_stored_digests() {
    let second = explainer(SECOND);
    for (corpus, lines) in stored() {
        for kind in corpus.kinds().into_iter().filter(|kind| kind.entry != "program") {
            let line = digests::kind_line(&second, &kind, |_| ()).expect("all entries");
            assert!(lines.contains(&line.as_str()), "{}: {line}", corpus.name);
        }
    }
}

#[test]
fn every_kind_has_a_stored_line_and_no_line_is_without_a_kind() {
    let words = |line: &str| line.split_whitespace().take(3).map(str::to_owned).collect();
    for (corpus, lines) in stored() {
        let stored: Vec<Vec<String>> = lines[1..].iter().map(|line| words(line)).collect();
        let known = corpus.kinds().into_iter();
        let known =
            known.map(|kind| vec![kind.entry.into(), kind.name.into(), kind.count.to_string()]);
        assert_eq!(stored, known.collect::<Vec<Vec<String>>>());
    }
}

#[test]
fn every_refusal_of_every_entry_is_among_the_answers() {
    let [base, marks, short, idle, written, names, starts, combined, smallest] =
        stored().map(|(_, lines)| lines);
    all_are_among(
        &base,
        &[
            ("read_table", &[0, 1, 2, 3, 4, 14]),
            ("read_formula", &[0, 5, 6, 7, 8, 9, 10, 14]),
            ("verdict", &[0, 10, 14]),
            ("build", &[0, 10, 11, 12, 14]),
            ("accepts", &[0, 10, 13, 14]),
            ("program", &[0, 1, 2, 3, 4, 5, 6, 7, 8, 9, 11, 12]),
        ],
    );
    all_are_among(
        &marks,
        &[
            ("read_table", &[0, 1, 2, 3]),
            ("read_formula", &[0, 6, 7, 10]),
            ("verdict", &[0, 10]),
            ("build", &[0, 10]),
            ("accepts", &[0, 10]),
            ("program", &[0, 1, 6, 7]),
        ],
    );
    all_are_among(
        &short,
        &[("read_formula", &[0, 5, 6, 7, 8, 9]), ("texts", &[0]), ("program", &[0, 5, 6, 7, 8, 9])],
    );
    all_are_among(&idle, &[("accepts", &[0, 13]), ("texts", &[0, 2])]);
    all_are_among(&written, &[("write_formula", &[0, 10, 14, 15]), ("read_back", &[0, 6, 7, 15])]);
    all_are_among(
        &names,
        &[
            ("read_table", &[0, 3]),
            ("read_formula", &[0, 7, 10]),
            ("verdict", &[0, 10]),
            ("accepts", &[0, 10]),
            ("texts", &[0, 3]),
        ],
    );
    all_are_among(&starts, &[("verdicts", &[0, 10, 14, 16])]);
    all_are_among(
        &combined,
        &[("combine", &[0, 10, 14, 17, 18, 19]), ("table_text", &[0, 10, 14])],
    );
    all_are_among(&smallest, &[("smallest", &[0, 10, 11, 12, 14, 20])]);
}

fn all_are_among(lines: &[&str], expected: &[(&str, &[u32])]) {
    let numbers = |entry: &str| -> BTreeSet<u32> {
        let lines = lines.iter().filter(|line| line.split_whitespace().next() == Some(entry));
        let answers = lines.flat_map(|line| line.split_whitespace().skip(4));
        answers
            .map(|answer| answer.split(':').next().expect("a word").parse().expect("a number"))
            .collect()
    };
    for (entry, expected) in expected {
        let missing = expected.iter().find(|number| !numbers(entry).contains(number));
        assert_eq!(missing, None, "{entry}");
    }
}

#[test]
fn a_byte_written_on_a_refusal_changes_its_inputs() {
    let read_table: entries::ReadTable = |text, table| {
        let reply = entries::read_table(text, table);
        if let (14, Some(byte)) = (reply.number, table.first_mut()) {
            *byte ^= 1;
        }
        reply
    };
    let wrong = Entries { read_table: Some(read_table), ..SECOND };
    assert!(differing(wrong, "read_table", "buffer-short") > 300);
    assert_eq!(differing(wrong, "read_table", "not-above"), 0);
}

#[test]
fn a_text_of_a_length_has_it() {
    for (name, number, length) in
        [("511-bytes", 0, 511), ("512-bytes", 0, 512), ("513-bytes", 15, 513)]
    {
        for line in each(SECOND, &WRITTEN, "write_formula", name) {
            let words: Vec<&str> = line.split_whitespace().collect();
            assert_eq!(words[1..3], [number, length].map(|word: u64| word.to_string()), "{name}");
        }
    }
}

#[test]
fn a_byte_behind_a_text_changes_its_inputs() {
    let write_formula: entries::WriteFormula = |table, formula, text| {
        let reply = entries::write_formula(table, formula, text);
        if let (0, Some(byte)) = (reply.number, text.get_mut(reply.figure as usize)) {
            *byte = 0;
        }
        reply
    };
    let wrong = Entries { write_formula: Some(write_formula), ..SECOND };
    assert!(differing_in(&WRITTEN, wrong, "write_formula", "class-1") > 700);
    assert!(differing_in(&WRITTEN, wrong, "write_formula", "511-bytes") > 90);
    assert_eq!(differing_in(&WRITTEN, wrong, "write_formula", "512-bytes"), 0);
}

#[test]
fn names_are_answered_by_whether_they_are_equal() {
    let lines = stored().into_iter().find(|(corpus, _)| corpus.name == NAMES.name).expect("it").1;
    for line in &lines[1..] {
        let words: Vec<&str> = line.split_whitespace().collect();
        let [entry, kind, count] = words[..3] else { panic!("{line}") };
        let number = match entry {
            "read_table" | "texts" if kind.contains("equal") => 3,
            _ if kind.contains("equal") => 10,
            _ if kind.contains("absent") => 7,
            _ => 0,
        };
        assert_eq!(words[4..], [format!("{number}:{count}")], "{line}");
    }
}

#[test]
fn lists_of_states_are_answered_by_whether_they_rise() {
    let lines = stored().into_iter().find(|(corpus, _)| corpus.name == STARTS.name).expect("it").1;
    let kinds = lines[1..].iter().map(|line| line.split_whitespace().collect::<Vec<&str>>());
    let made = kinds.take_while(|words| words[1] != "any-bytes");
    for words in made {
        let number = if words[1].starts_with("bad-") { 16 } else { 0 };
        assert_eq!(words[4..], [format!("{number}:{}", words[2])], "{}", words[1]);
    }
    for (name, figure) in [
        ("none", "1"),
        ("bad-count-alone", "0"),
        ("bad-falling", "1"),
        ("bad-256-entries-the-last", "255"),
        ("bad-257-entries", "256"),
        ("bad-300-entries", "256"),
        ("bad-70000-entries", "256"),
    ] {
        assert_eq!(figures(&STARTS, "verdicts", name), [figure.to_owned()].into(), "{name}");
    }
}

/// All that the second explainer answers to a kind.
fn figures(corpus: &Corpus, entry: &str, name: &str) -> BTreeSet<String> {
    let lines = each(SECOND, corpus, entry, name);
    lines.iter().map(|line| line.split_whitespace().nth(2).expect("it").to_owned()).collect()
}

#[test]
fn results_over_a_limit_are_answered_by_their_count() {
    for (name, figure) in [
        ("bad-258-pairs", "258"),
        ("bad-41-labels", "41"),
        ("bad-1025-transitions", "1025"),
        ("bad-labels-and-transitions", "41"),
        ("256-pairs", "0"),
        ("40-labels", "0"),
        ("1024-transitions", "0"),
        ("largest", "0"),
    ] {
        assert_eq!(figures(&COMBINED, "combine", name), [figure.to_owned()].into(), "{name}");
    }
    assert_eq!(figures(&COMBINED, "table_text", "longest"), ["20321".to_owned()].into());
}

#[test]
fn tables_in_the_other_order_change_their_inputs() {
    let combine: entries::Combine =
        |first, second, combined| entries::combine(second, first, combined);
    let wrong = Entries { combine: Some(combine), ..SECOND };
    assert!(differing_in(&COMBINED, wrong, "combine", "any-two") > 400);
    assert!(differing_in(&COMBINED, wrong, "combine", "largest") > 30);
    assert_eq!(differing_in(&COMBINED, wrong, "combine", "any-and-itself"), 0);
    assert_eq!(differing_in(&COMBINED, wrong, "combine", "bad-41-labels"), 0);
}

/// A fault in what a call leaves of the automaton's buffer and of the work buffer.
macro_rules! smallest {
    (|$reply:ident, $smallest:ident, $work:ident| $fault:block) => {{
        let wrong: entries::Smallest = |table, formula, rows, edges, $smallest, $work, edge_count| {
            let $reply =
                entries::smallest(table, formula, rows, edges, $smallest, $work, edge_count);
            $fault
            $reply
        };
        Entries { smallest: Some(wrong), ..SECOND }
    }};
}

#[test]
fn a_byte_of_the_smallest_automaton_or_behind_it_changes_its_inputs() {
    let behind = smallest!(|reply, smallest, _work| {
        if reply.number == 0 {
            let [states, edges] =
                [0, 2].map(|at| u16::from_le_bytes([smallest[at], smallest[at + 1]]));
            let used = 4 + usize::from(states) + 3 * usize::from(edges);
            smallest[used] ^= 1;
        }
    });
    let last_mark = smallest!(|reply, smallest, _work| {
        if reply.number == 0 && smallest[..2] == [0, 1] {
            smallest[4 + 255] ^= 1;
        }
    });
    for (wrong, name, count) in [
        (behind, "many-steps", 400),
        (behind, "loops-256-sets-40-labels", 5),
        (behind, "bad-ring-257-sets", 0),
        (last_mark, "loops-256-sets", 20),
        (last_mark, "ring-255-sets", 0),
    ] {
        assert_eq!(differing_in(&SMALLEST, wrong, "smallest", name), count, "{name}");
    }
}

#[test]
fn a_work_buffer_that_is_not_cleared_changes_its_inputs() {
    const WORK: usize = 524_288;
    let last = smallest!(|reply, _smallest, work| {
        if reply.number != 14 {
            work[WORK - 1] = 1;
        }
    });
    let past = smallest!(|reply, _smallest, work| {
        if let (true, Some(byte)) = (reply.number != 14, work.get_mut(WORK)) {
            *byte ^= 1;
        }
    });
    let short = smallest!(|reply, _smallest, work| {
        if reply.number == 14 {
            work.fill(0);
        }
    });
    for (wrong, name, count) in [
        (last, "m", 150),
        (last, "no-places", 100),
        (last, "table-unused-damaged", 150),
        (last, "bad-ring-257-sets", 40),
        (last, "smallest-short", 0),
        (past, "work-longer", 100),
        (past, "m", 0),
        (short, "smallest-short", 100),
        (short, "m", 0),
    ] {
        assert_eq!(differing_in(&SMALLEST, wrong, "smallest", name), count, "{name}");
    }
}

#[test]
fn too_many_sets_are_answered_by_257_behind_other_refusals() {
    let (_, lines) =
        stored().into_iter().find(|(corpus, _)| corpus.name == SMALLEST.name).expect("it");
    for line in &lines[1..] {
        let words: Vec<&str> = line.split_whitespace().collect();
        let [kind, count] = words[1..3] else { panic!("{line}") };
        let number = match kind {
            _ if kind.starts_with("bad-") => 20,
            "257-sets-few-rows" | "no-places" => 11,
            "257-sets-few-edges" => 12,
            "257-sets-formula-damaged" => 10,
            _ if kind.contains("short") || kind.contains("as-long-as-used") => 14,
            _ if kind.contains("-sets") || kind == "most-rows" => 0,
            _ => continue,
        };
        assert_eq!(words[4..], [format!("{number}:{count}")], "{line}");
    }
    for (name, figure) in [
        ("bad-ring-257-sets", "257"),
        ("bad-loops-16384-sets", "257"),
        ("257-sets-few-rows", "257"),
        ("most-rows", "9750"),
    ] {
        assert_eq!(figures(&SMALLEST, "smallest", name), [figure.to_owned()].into(), "{name}");
    }
}

#[test]
fn an_answer_behind_the_listed_states_changes_its_inputs() {
    let verdicts: entries::Verdicts = |table, formula, starts, answers| {
        let reply = entries::verdicts(table, formula, starts, answers);
        if let (0, Some(byte)) = (reply.number, answers.get_mut(starts.len())) {
            *byte = 2;
        }
        reply
    };
    let wrong = Entries { verdicts: Some(verdicts), ..SECOND };
    assert!(differing_in(&STARTS, wrong, "verdicts", "none") > 390);
    assert!(differing_in(&STARTS, wrong, "verdicts", "largest-255-of-256") > 25);
    assert_eq!(differing_in(&STARTS, wrong, "verdicts", "largest-all-256"), 0);
    assert_eq!(differing_in(&STARTS, wrong, "verdicts", "bad-falling"), 0);
}

#[test]
fn answers_at_the_start_of_the_table_change_its_inputs() {
    let verdicts: entries::Verdicts = |table, formula, starts, answers| {
        let reply = entries::verdicts(table, formula, starts, answers);
        let at_start = entries::verdict(table, formula).figure;
        answers.iter_mut().take(starts.len()).for_each(|answer| *answer = at_start as u8);
        reply
    };
    let wrong = Entries { verdicts: Some(verdicts), ..SECOND };
    for (name, least) in [("all-states-class-1", 100), ("all-states-idle-class-2", 100)] {
        let differing = differing_in(&STARTS, wrong, "verdicts", name);
        assert!(differing > least, "{name}: {differing}");
    }
}

#[test]
fn a_count_of_edges_written_on_a_refusal_changes_its_inputs() {
    let build: entries::Build = |table, formula, rows, edges, edge_count| {
        let reply = entries::build(table, formula, rows, edges, edge_count);
        *edge_count = if reply.number == 12 { reply.figure } else { *edge_count };
        reply
    };
    let wrong = Entries { build: Some(build), ..SECOND };
    assert!(differing(wrong, "build", "few-edges-with-exits") > 100);
    assert_eq!(differing(wrong, "build", "m-with-exits"), 0);
}

#[test]
fn another_letter_for_idle_steps_changes_tables_with_states_without_exits_only() {
    // 0 in place of 99, as if each idle step were written; what is shown read is the table as lent.
    let build: entries::Build = |table, formula, rows, edges, edge_count| {
        let read = prepared::table_of(table).expect("a table");
        let written = with_loops(&read, SILENT).expect("few transitions");
        entries::build(&prepared::table_bytes(&written), formula, rows, edges, edge_count)
    };
    let wrong = Entries { build: Some(build), ..SECOND };
    assert_eq!(differing(wrong, "build", "small-with-exits-class-1"), 0);
    assert_eq!(differing(wrong, "build", "small-with-exits-class-2"), 0);
    assert_eq!(differing(wrong, "build", "silent-loops"), 0);
    assert!(differing(wrong, "build", "small-some-without-class-1") > 100);
    assert!(differing(wrong, "build", "small-some-without-class-2") > 100);
}

#[test]
fn a_layout_of_prepared_bytes_is_no_part_of_what_texts_show() {
    const KEY: u8 = 0x55;
    fn turned(bytes: &[u8]) -> Vec<u8> {
        bytes.iter().map(|byte| byte ^ KEY).collect()
    }
    fn turn(bytes: &mut [u8]) {
        bytes.iter_mut().for_each(|byte| *byte ^= KEY);
    }
    fn kept(reply: Reply, buffer: &mut [u8]) -> Reply {
        turn(buffer);
        reply
    }
    let other = Entries {
        read_table: Some(|text, table| kept(entries::read_table(text, table), table)),
        read_formula: Some(|table, text, formula| {
            kept(entries::read_formula(&turned(table), text, formula), formula)
        }),
        write_formula: Some(|table, formula, text| {
            entries::write_formula(&turned(table), &turned(formula), text)
        }),
        verdict: Some(|table, formula| entries::verdict(&turned(table), &turned(formula))),
        build: Some(|table, formula, rows, edges, count| {
            entries::build(&turned(table), &turned(formula), rows, edges, count)
        }),
        accepts: Some(|table, formula, word| {
            entries::accepts(&turned(table), &turned(formula), word)
        }),
        ..Entries::default()
    };
    assert_eq!(differing(other, "texts", "small-some-without-class-2"), 0);
    assert_eq!(differing_in(&WRITTEN, other, "read_back", "short-forms"), 0);
}

#[test]
fn an_entry_or_a_program_that_is_missing_is_not_passed_over() {
    let none = explainer(Entries::default());
    for kind in stored().iter().flat_map(|(corpus, _)| corpus.kinds()) {
        assert!(none.answer(&kind.input(0)).is_err(), "{} {}", kind.entry, kind.name);
    }
}

#[test]
fn a_changed_missing_or_surplus_line_is_told() {
    let [(_, base), ..] = stored();
    let (first, second) = (base[1], base[2]);
    let changed = first.replace("0:", "1:");
    let both = format!("# any comment\n{first}\n{second}\n");
    assert_eq!(difference(&both, &format!("{first}\n{second}\n")), None);
    let told = |stored: &str, new: &str| difference(stored, new).expect("a difference");
    assert_eq!(told(first, &changed), format!("- {first}\n+ {changed}"));
    assert_eq!(told(&both, first), format!("- {second}"));
    assert_eq!(told(first, &both), format!("+ {second}"));
    assert!(told(&both, &format!("{both}{second}")).contains("more than once"));
    assert!(told("", &both).contains(first));
}
