//! Explainers that are wrong where few inputs look: in long words, in one byte of prepared bytes, at
//! all limits together, in the marks of names, in short forms, in idle steps, in the figure of a rare
//! refusal. The gate's inputs find each of them.

mod common;

use std::fs;
use std::path::Path;
use std::process::{ExitStatus, Output};

use common::found::{SEED, all_are_found};
use common::line::{Fault, Line};
use common::loops::{exchanged, with_loops, without_lone_loops};
use second::baseline::{
    BASELINE, accepts, build, read_formula, read_table, smallest, verdict, verdicts, write_formula,
};
use second::entries::{EDGE_PLACE, Entries, NONE, ROW_PLACE, SECOND};
use second::formula::{Condition, Formula, MAX_BYTES, MAX_NODES, Node, Set};
use second::prepared::{
    self, FORMULA_LENGTH, NAME_SLOT, NAMES, NODE_SLOT, TABLE_LENGTH, TRANSITION_SLOT, TRANSITIONS,
};
use second::reply::Reply;
use second::table::{IDLE, MAX_LABELS, MAX_STEM, SILENT, Table, is_name_byte};
use second::{fuzz, print, program};

/// As in .ci/second.
const FOLDERS: u64 = 3_000;

#[test]
fn faults_in_long_words_are_found() {
    all_are_found(&[
        (
            "a word of 100 to 1,000 labels is lost",
            Entries {
                accepts: Some(|table, formula, word| match accepts(table, formula, word) {
                    Reply { number: 0, .. } if (100..=1_000).contains(&word.len()) => {
                        Reply::accepted(0)
                    }
                    reply => reply,
                }),
                ..NONE
            },
        ),
        (
            "a word of 256 to 1,023 labels is read for its length's low byte",
            Entries {
                accepts: Some(|table, formula, word| match word.len() {
                    256..1_024 => accepts(table, formula, &word[..word.len() % 256]),
                    _ => accepts(table, formula, word),
                }),
                ..NONE
            },
        ),
        (
            "a word of 512 labels is invented",
            Entries {
                accepts: Some(|table, formula, word| match accepts(table, formula, word) {
                    Reply { number: 0, .. } if word.len() == 512 => Reply::accepted(1),
                    reply => reply,
                }),
                ..NONE
            },
        ),
        (
            "the last of 500 to 1,023 labels is not looked at",
            Entries {
                accepts: Some(|table, formula, word| {
                    let reply = accepts(table, formula, word);
                    match word.len() {
                        500..1_024 if reply.figure == word.len() as u64 - 1 => {
                            accepts(table, formula, &word[..word.len() - 1])
                        }
                        _ => reply,
                    }
                }),
                ..NONE
            },
        ),
    ]);
}

/// With the byte cleared, if the table does not use it.
fn without_table_byte<const AT: usize>(table: &[u8]) -> Vec<u8> {
    let mut table = table.to_vec();
    if table.len() >= TABLE_LENGTH {
        let used = u16::from_le_bytes([table[3], table[4]]) as usize;
        if AT < TRANSITIONS || AT >= TRANSITIONS + used * TRANSITION_SLOT {
            table[AT] = 0;
        }
    }
    table
}

fn without_formula_byte<const AT: usize>(formula: &[u8]) -> Vec<u8> {
    let mut formula = formula.to_vec();
    if formula.len() >= FORMULA_LENGTH && AT > formula[0] as usize * NODE_SLOT {
        formula[AT] = 0;
    }
    formula
}

/// An explainer that does not look at one byte of prepared tables.
fn ignoring_of_table<const AT: usize>() -> Entries {
    Entries {
        read_formula: Some(|table, text, formula| {
            read_formula(&without_table_byte::<AT>(table), text, formula)
        }),
        write_formula: Some(|table, formula, text| {
            write_formula(&without_table_byte::<AT>(table), formula, text)
        }),
        verdict: Some(|table, formula| verdict(&without_table_byte::<AT>(table), formula)),
        verdicts: Some(|table, formula, starts, answers| {
            verdicts(&without_table_byte::<AT>(table), formula, starts, answers)
        }),
        build: Some(|table, formula, rows, edges, edge_count| {
            build(&without_table_byte::<AT>(table), formula, rows, edges, edge_count)
        }),
        smallest: Some(|table, formula, rows, edges, lent, work, edge_count| {
            let table = without_table_byte::<AT>(table);
            smallest(&table, formula, rows, edges, lent, work, edge_count)
        }),
        accepts: Some(|table, formula, word| {
            accepts(&without_table_byte::<AT>(table), formula, word)
        }),
        ..NONE
    }
}

/// An explainer that does not look at one byte of prepared formulas.
fn ignoring_of_formula<const AT: usize>() -> Entries {
    Entries {
        write_formula: Some(|table, formula, text| {
            write_formula(table, &without_formula_byte::<AT>(formula), text)
        }),
        verdict: Some(|table, formula| verdict(table, &without_formula_byte::<AT>(formula))),
        verdicts: Some(|table, formula, starts, answers| {
            verdicts(table, &without_formula_byte::<AT>(formula), starts, answers)
        }),
        build: Some(|table, formula, rows, edges, edge_count| {
            build(table, &without_formula_byte::<AT>(formula), rows, edges, edge_count)
        }),
        smallest: Some(|table, formula, rows, edges, lent, work, edge_count| {
            let formula = without_formula_byte::<AT>(formula);
            smallest(table, &formula, rows, edges, lent, work, edge_count)
        }),
        accepts: Some(|table, formula, word| {
            accepts(table, &without_formula_byte::<AT>(formula), word)
        }),
        ..NONE
    }
}

/// Each of the explainer's entries alone.
fn one_by_one(wrong: Entries) -> Vec<(&'static str, Entries)> {
    let Entries { read_formula, write_formula, verdict, verdicts, build, smallest, .. } = wrong;
    let accepts = wrong.accepts;
    let entries = [
        ("read_formula", Entries { read_formula, ..NONE }, read_formula.is_some()),
        ("write_formula", Entries { write_formula, ..NONE }, write_formula.is_some()),
        ("verdict", Entries { verdict, ..NONE }, verdict.is_some()),
        ("verdicts", Entries { verdicts, ..NONE }, verdicts.is_some()),
        ("build", Entries { build, ..NONE }, build.is_some()),
        ("smallest", Entries { smallest, ..NONE }, smallest.is_some()),
        ("accepts", Entries { accepts, ..NONE }, accepts.is_some()),
    ];
    let wrong = entries.into_iter().filter(|(.., is_there)| *is_there);
    wrong.map(|(name, alone, _)| (name, alone)).collect()
}

#[test]
fn a_byte_of_prepared_tables_that_is_not_looked_at_is_found() {
    const LAST: usize = TABLE_LENGTH - 1;
    println!("last byte of the table");
    all_are_found(&one_by_one(ignoring_of_table::<LAST>()));
    println!("first byte of the last transition's slot");
    all_are_found(&one_by_one(ignoring_of_table::<{ LAST - 2 }>()));
    println!("last byte of the last name's slot");
    all_are_found(&one_by_one(ignoring_of_table::<{ TRANSITIONS - 1 }>()));
}

#[test]
fn a_byte_of_prepared_formulas_that_is_not_looked_at_is_found() {
    const LAST: usize = FORMULA_LENGTH - 1;
    println!("last byte of the formula");
    all_are_found(&one_by_one(ignoring_of_formula::<LAST>()));
    println!("last byte but one");
    all_are_found(&one_by_one(ignoring_of_formula::<{ LAST - 1 }>()));
    println!("kind of the last node's slot");
    all_are_found(&one_by_one(ignoring_of_formula::<{ LAST - 16 }>()));
}

/// 256 states, 1,024 transitions and 40 nodes, both prepared forms long enough.
fn is_largest(table: &[u8], formula: &[u8]) -> bool {
    table.len() >= TABLE_LENGTH
        && formula.len() >= FORMULA_LENGTH
        && (table[0], table[1], table[3], table[4]) == (0, 1, 0, 4)
        && formula[0] == 40
}

#[test]
fn faults_at_all_limits_together_are_found() {
    all_are_found(&[
        (
            "the last row's mark",
            Entries {
                build: Some(|table, formula, rows, edges, edge_count| {
                    let reply = build(table, formula, rows, edges, edge_count);
                    if reply.number == 0 && is_largest(table, formula) {
                        rows[reply.figure as usize * ROW_PLACE - 1] ^= 1;
                    }
                    reply
                }),
                ..NONE
            },
        ),
        (
            "the last row's mark, if the root is no until",
            Entries {
                build: Some(|table, formula, rows, edges, edge_count| {
                    let reply = build(table, formula, rows, edges, edge_count);
                    if reply.number == 0 && is_largest(table, formula) && formula[1] < 8 {
                        rows[reply.figure as usize * ROW_PLACE - 1] ^= 1;
                    }
                    reply
                }),
                ..NONE
            },
        ),
        (
            "the last edge's target",
            Entries {
                build: Some(|table, formula, rows, edges, edge_count| {
                    let reply = build(table, formula, rows, edges, edge_count);
                    let is_wrong = reply.number == 0 && is_largest(table, formula);
                    if let (true, Some(last)) = (is_wrong, edge_count.checked_sub(1)) {
                        edges[last as usize * EDGE_PLACE + 3] ^= 1;
                    }
                    reply
                }),
                ..NONE
            },
        ),
        (
            "a listing of more than 65,535 edges",
            Entries {
                build: Some(|table, formula, rows, edges, edge_count| {
                    let reply = build(table, formula, rows, edges, edge_count);
                    if reply.number == 0 && is_largest(table, formula) {
                        *edge_count &= 0xffff;
                    }
                    reply
                }),
                ..NONE
            },
        ),
        (
            "the smallest automaton of a listing of more than 65,535 edges",
            Entries {
                smallest: Some(|table, formula, rows, edges, lent, work, edge_count| {
                    let reply = smallest(table, formula, rows, edges, lent, work, edge_count);
                    if reply.number == 0 && *edge_count > 65_535 {
                        lent[4] ^= 1;
                    }
                    reply
                }),
                ..NONE
            },
        ),
        (
            "the smallest automaton of the most states, transitions and nodes",
            Entries {
                smallest: Some(|table, formula, rows, edges, lent, work, edge_count| {
                    let reply = smallest(table, formula, rows, edges, lent, work, edge_count);
                    if reply.number == 0 && is_largest(table, formula) {
                        lent[4] ^= 1;
                    }
                    reply
                }),
                ..NONE
            },
        ),
        (
            "the word's answer",
            Entries {
                accepts: Some(|table, formula, word| match accepts(table, formula, word) {
                    Reply { number: 0, .. } if is_largest(table, formula) => Reply::accepted(0),
                    reply => reply,
                }),
                ..NONE
            },
        ),
        (
            "the answer to a word of 12 and more labels",
            Entries {
                accepts: Some(|table, formula, word| match accepts(table, formula, word) {
                    Reply { number: 0, .. } if is_largest(table, formula) && word.len() >= 12 => {
                        Reply::accepted(0)
                    }
                    reply => reply,
                }),
                ..NONE
            },
        ),
        (
            "the verdict",
            Entries {
                verdict: Some(|table, formula| match verdict(table, formula) {
                    Reply { number: 0, figure } if is_largest(table, formula) => {
                        Reply::accepted(1 - figure)
                    }
                    reply => reply,
                }),
                ..NONE
            },
        ),
        (
            "the last answer at a listed state",
            Entries {
                verdicts: Some(|table, formula, starts, answers| {
                    let reply = verdicts(table, formula, starts, answers);
                    if reply.number == 0 && is_largest(table, formula) && !starts.is_empty() {
                        answers[starts.len() - 1] ^= 1;
                    }
                    reply
                }),
                ..NONE
            },
        ),
        (
            "the last of all 256 answers",
            Entries {
                verdicts: Some(|table, formula, starts, answers| {
                    let reply = verdicts(table, formula, starts, answers);
                    if reply.number == 0 && is_largest(table, formula) && starts.len() == 256 {
                        answers[255] ^= 1;
                    }
                    reply
                }),
                ..NONE
            },
        ),
    ]);
}

#[test]
fn lengths_off_by_one_are_found() {
    fn grown(bytes: &[u8], length: usize) -> Vec<u8> {
        let mut bytes = bytes.to_vec();
        if bytes.len() == length - 1 {
            bytes.push(0);
        }
        bytes
    }
    fn table(bytes: &[u8]) -> Vec<u8> {
        grown(bytes, TABLE_LENGTH)
    }
    fn formula(bytes: &[u8]) -> Vec<u8> {
        grown(bytes, FORMULA_LENGTH)
    }
    println!("a table one byte short is taken");
    all_are_found(&one_by_one(Entries {
        read_formula: Some(|of, text, written| read_formula(&table(of), text, written)),
        write_formula: Some(|of, node, text| write_formula(&table(of), node, text)),
        verdict: Some(|of, node| verdict(&table(of), node)),
        verdicts: Some(|of, node, starts, lent| verdicts(&table(of), node, starts, lent)),
        build: Some(|of, node, rows, edges, count| build(&table(of), node, rows, edges, count)),
        smallest: Some(|of, node, rows, edges, lent, work, count| {
            smallest(&table(of), node, rows, edges, lent, work, count)
        }),
        accepts: Some(|of, node, word| accepts(&table(of), node, word)),
        ..NONE
    }));
    println!("a formula one byte short is taken");
    all_are_found(&one_by_one(Entries {
        write_formula: Some(|of, node, text| write_formula(of, &formula(node), text)),
        verdict: Some(|of, node| verdict(of, &formula(node))),
        verdicts: Some(|of, node, starts, lent| verdicts(of, &formula(node), starts, lent)),
        build: Some(|of, node, rows, edges, count| build(of, &formula(node), rows, edges, count)),
        smallest: Some(|of, node, rows, edges, lent, work, count| {
            smallest(of, &formula(node), rows, edges, lent, work, count)
        }),
        accepts: Some(|of, node, word| accepts(of, &formula(node), word)),
        ..NONE
    }));
}

fn is_mark(byte: u8) -> bool {
    matches!(byte, b'?' | b'!')
}

/// A name, or what is left of it without its mark.
fn stem(name: &[u8]) -> &[u8] {
    name.strip_suffix(b"?").or(name.strip_suffix(b"!")).unwrap_or(name)
}

/// The names of a prepared table.
fn names(table: &[u8]) -> Vec<Vec<u8>> {
    let read = table.get(..TABLE_LENGTH).and_then(prepared::table_of);
    read.map(|table| table.names).unwrap_or_default()
}

fn is_operand(text: &[u8], at: usize) -> bool {
    is_mark(text[at]) && (at == 0 || !is_name_byte(text[at - 1]))
}

/// A text that is accepted is read with each operand `?` and `!` spelled otherwise, unless it became
/// too long.
fn read_respelled(
    table: &[u8],
    text: &[u8],
    formula: &mut [u8],
    spelled: impl Fn(u8) -> Vec<u8>,
) -> Reply {
    let reply = read_formula(table, text, formula);
    let spelled = |at: usize| match is_operand(text, at) {
        true => spelled(text[at]),
        false => vec![text[at]],
    };
    let other: Vec<u8> = (0..text.len()).flat_map(spelled).collect();
    match reply.number == 0 && other.len() <= MAX_BYTES {
        true => read_formula(table, &other, formula),
        false => reply,
    }
}

/// The labels of these that go the mark's way, as a set of one operand.
fn listed(names: &[Vec<u8>], mark: u8, is_listed: fn(&[u8]) -> bool) -> Vec<u8> {
    let going = |name: &&Vec<u8>| name.last() == Some(&mark) && is_listed(name);
    let going: Vec<&[u8]> = names.iter().filter(going).map(Vec::as_slice).collect();
    match going.is_empty() {
        true => b"~*".to_vec(),
        false => [b"(".as_slice(), &going.join(b"|".as_slice()), b")"].concat(),
    }
}

fn length_of_name(text: &[u8]) -> usize {
    let letters = text.iter().take_while(|&&byte| is_name_byte(byte)).count();
    letters + usize::from(text.get(letters).is_some_and(|&byte| is_mark(byte)))
}

/// With each name that the table lacks become one of the same stem.
fn with_marks_of_table(table: &[u8], mut text: Vec<u8>, formula: &mut [u8]) -> Reply {
    loop {
        let reply = read_formula(table, &text, formula);
        let Reply { number: 7, figure } = reply else {
            return reply;
        };
        let at = figure as usize;
        let end = at + length_of_name(&text[at..]);
        let alike = |name: &Vec<u8>| stem(name) == stem(&text[at..end]);
        let Some(known) = names(table).into_iter().find(alike) else {
            return reply;
        };
        text.splice(at..end, known);
    }
}

/// With each mark that follows blanks moved to the name before them.
fn with_marks_moved(table: &[u8], mut text: Vec<u8>, formula: &mut [u8]) -> Reply {
    loop {
        let reply = read_formula(table, &text, formula);
        let at = reply.figure as usize;
        let Some(mark) = text.get(at).copied().filter(|&byte| reply.number == 6 && is_mark(byte))
        else {
            return reply;
        };
        let blanks = text[..at].iter().rev().take_while(|&&byte| byte == b' ').count();
        if blanks == 0 || at == blanks || !is_name_byte(text[at - blanks - 1]) {
            return reply;
        }
        text.copy_within(at - blanks..at, at - blanks + 1);
        text[at - blanks] = mark;
    }
}

/// A line of a table's text, from 1, without its end.
fn line(text: &[u8], number: u64) -> &[u8] {
    text.split(|&byte| byte == b'\n').nth(number as usize - 1).unwrap_or_default()
}

#[test]
fn faults_in_the_marks_of_tables_are_found() {
    all_are_found(&[
        (
            "a name is used before by its stem",
            Entries {
                read_table: Some(|text, table| {
                    let before = table.to_vec();
                    let reply = read_table(text, table);
                    let names = if reply.number == 0 { names(table) } else { Vec::new() };
                    let used = |at: &usize| {
                        names[..*at].iter().any(|name| stem(name) == stem(&names[*at]))
                    };
                    let Some(at) = (0..names.len()).find(used) else {
                        return reply;
                    };
                    table.copy_from_slice(&before);
                    Reply { number: 3, figure: at as u64 + 2 }
                }),
                ..NONE
            },
        ),
        (
            "thirteen letters are a name",
            Entries {
                read_table: Some(|text, table| match read_table(text, table) {
                    Reply { number: 1, figure } => {
                        let line = line(text, figure);
                        let name = line.get(7..).unwrap_or_default();
                        match name.len() == MAX_STEM + 1 && length_of_name(name) == name.len() {
                            true => Reply::accepted(0),
                            false => Reply { number: 1, figure },
                        }
                    }
                    reply => reply,
                }),
                ..NONE
            },
        ),
        (
            "a mark may follow thirteen letters",
            Entries {
                read_table: Some(|text, table| match read_table(text, table) {
                    Reply { number: 1, figure } => {
                        let line = line(text, figure);
                        let name = line.get(7..).unwrap_or_default();
                        match name.len() == MAX_STEM + 2 && length_of_name(name) == name.len() {
                            true => Reply::accepted(0),
                            false => Reply { number: 1, figure },
                        }
                    }
                    reply => reply,
                }),
                ..NONE
            },
        ),
        (
            "a mark may follow a blank",
            Entries {
                read_table: Some(|text, table| match read_table(text, table) {
                    Reply { number: 1, figure } => {
                        let line = line(text, figure);
                        match line.ends_with(b" ?") || line.ends_with(b" !") {
                            true => Reply::accepted(0),
                            false => Reply { number: 1, figure },
                        }
                    }
                    reply => reply,
                }),
                ..NONE
            },
        ),
        (
            "the mark of a name of thirteen bytes is not written",
            Entries {
                read_table: Some(|text, table| {
                    let reply = read_table(text, table);
                    if reply.number == 0 {
                        let slots = table[NAMES..TRANSITIONS].chunks_mut(NAME_SLOT);
                        slots.filter(|slot| slot[0] == 13).for_each(|slot| slot[13] = 0);
                    }
                    reply
                }),
                ..NONE
            },
        ),
    ]);
}

/// The table's bytes with each name slot repaired.
fn with_slots(table: &[u8], repair: fn(&mut [u8])) -> Vec<u8> {
    let mut table = table.to_vec();
    if table.len() >= TABLE_LENGTH {
        table[NAMES..TRANSITIONS].chunks_mut(NAME_SLOT).for_each(repair);
    }
    table
}

#[test]
fn faults_in_the_marks_of_prepared_tables_are_found() {
    all_are_found(&[
        (
            "a prepared name of thirteen letters is taken",
            Entries {
                verdict: Some(|table, formula| {
                    let table = with_slots(table, |slot| {
                        if slot[0] == 13 && is_name_byte(slot[13]) {
                            slot[13] = b'?';
                        }
                    });
                    verdict(&table, formula)
                }),
                ..NONE
            },
        ),
        (
            "a prepared name of two marks is taken",
            Entries {
                verdict: Some(|table, formula| {
                    let table = with_slots(table, |slot| {
                        let length = slot[0] as usize;
                        if (3..14).contains(&length)
                            && slot[length - 1..=length].iter().all(|&byte| is_mark(byte))
                        {
                            slot[length - 1] = b'a';
                        }
                    });
                    verdict(&table, formula)
                }),
                ..NONE
            },
        ),
        (
            "a mark behind a prepared name's length is passed over",
            Entries {
                verdict: Some(|table, formula| {
                    let table = with_slots(table, |slot| {
                        let length = slot[0] as usize;
                        if (1..13).contains(&length) && is_mark(slot[length + 1]) {
                            slot[length + 1] = 0;
                        }
                    });
                    verdict(&table, formula)
                }),
                ..NONE
            },
        ),
    ]);
}

#[test]
fn faults_in_the_marks_of_formulas_are_found() {
    all_are_found(&[
        (
            "names are compared without their marks",
            Entries {
                read_formula: Some(|table, text, formula| {
                    with_marks_of_table(table, text.to_vec(), formula)
                }),
                ..NONE
            },
        ),
        (
            "`?` is taken for sent and `!` for received",
            Entries {
                read_formula: Some(|table, text, formula| {
                    let other = |mark| vec![if mark == b'?' { b'!' } else { b'?' }];
                    read_respelled(table, text, formula, other)
                }),
                ..NONE
            },
        ),
        (
            "a marked name has no direction",
            Entries {
                read_formula: Some(|table, text, formula| {
                    read_respelled(table, text, formula, |_| b"~*".to_vec())
                }),
                ..NONE
            },
        ),
        (
            "a name of thirteen bytes has no direction",
            Entries {
                read_formula: Some(|table, text, formula| {
                    let names = names(table);
                    let shorter = |mark| listed(&names, mark, |name| name.len() <= MAX_STEM);
                    read_respelled(table, text, formula, shorter)
                }),
                ..NONE
            },
        ),
        (
            "label 40 has no direction",
            Entries {
                read_formula: Some(|table, text, formula| {
                    let names = names(table);
                    let first = &names[..names.len().min(39)];
                    let of_first = |mark| listed(first, mark, |_| true);
                    read_respelled(table, text, formula, of_first)
                }),
                ..NONE
            },
        ),
        (
            "`?` admits label 0",
            Entries {
                read_formula: Some(|table, text, formula| {
                    let reply = read_formula(table, text, formula);
                    if reply.number == 0 && (0..text.len()).any(|at| is_operand(text, at)) {
                        let nodes = formula[0].into();
                        let slots = formula[1..].chunks_mut(NODE_SLOT).take(nodes);
                        let sets = slots.filter(|slot| matches!(slot[0], 5 | 7 | 8 | 9));
                        sets.for_each(|slot| slot[1] |= 1);
                    }
                    reply
                }),
                ..NONE
            },
        ),
        (
            "`?` admits unmarked labels",
            Entries {
                read_formula: Some(|table, text, formula| {
                    let others = |mark| vec![b'~', if mark == b'?' { b'!' } else { b'?' }];
                    read_respelled(table, text, formula, others)
                }),
                ..NONE
            },
        ),
        (
            "`~?` is all sent labels",
            Entries {
                read_formula: Some(|table, text, formula| {
                    let mut text = text.to_vec();
                    for at in 1..text.len() {
                        if text[at - 1] == b'~' && text[at] == b'?' {
                            text[at - 1..=at].copy_from_slice(b" !");
                        }
                    }
                    read_formula(table, &text, formula)
                }),
                ..NONE
            },
        ),
        (
            "thirteen letters are a name",
            Entries {
                read_formula: Some(|table, text, formula| {
                    let reply = read_formula(table, text, formula);
                    let at = reply.figure as usize;
                    let is_longer = reply.number == 6
                        && at > MAX_STEM
                        && text.get(at).is_some_and(|&byte| is_name_byte(byte))
                        && text[at - MAX_STEM..at].iter().all(|&byte| is_name_byte(byte));
                    Reply { figure: reply.figure + u64::from(is_longer), ..reply }
                }),
                ..NONE
            },
        ),
        (
            "a mark may follow a blank",
            Entries {
                read_formula: Some(|table, text, formula| {
                    with_marks_moved(table, text.to_vec(), formula)
                }),
                ..NONE
            },
        ),
        (
            "a name may have two marks",
            Entries {
                read_formula: Some(|table, text, formula| {
                    let reply = read_formula(table, text, formula);
                    let at = reply.figure as usize;
                    let is_second = reply.number == 6
                        && text.get(at).is_some_and(|&byte| is_mark(byte))
                        && at > 1
                        && is_mark(text[at - 1])
                        && is_name_byte(text[at - 2]);
                    Reply { figure: reply.figure + u64::from(is_second), ..reply }
                }),
                ..NONE
            },
        ),
    ]);
}

/// A line that is grammatical, with the names of the table, is read as it is written out with a fault.
fn read_with(fault: Fault, table: &[u8], text: &[u8], formula: &mut [u8]) -> Reply {
    let reply = read_formula(table, text, &mut formula.to_vec());
    if !matches!(reply.number, 0 | 8 | 9) {
        return reply;
    }
    let table = prepared::table_of(table).expect("a table");
    match Formula::read_base(&table, Line::read(text).written_out(fault).as_bytes()) {
        Ok(read) => {
            formula[..FORMULA_LENGTH].copy_from_slice(&prepared::formula_bytes(&read));
            Reply::accepted(0)
        }
        Err(refusal) => refusal.into(),
    }
}

/// Whatever is refused by the grammar is typed otherwise and read again, as long as it can be.
fn read_retyped(
    table: &[u8],
    text: &[u8],
    formula: &mut [u8],
    retyped: fn(&[u8], usize) -> Option<Vec<u8>>,
) -> Reply {
    let mut text = text.to_vec();
    loop {
        let reply = read_formula(table, &text, formula);
        let Reply { number: 6, figure } = reply else {
            return reply;
        };
        match retyped(&text, figure as usize) {
            Some(other) => text = other,
            None => return reply,
        }
    }
}

/// The keyword before the square bracket that this byte stands in, if it is one of three bytes.
fn keyword(text: &[u8], at: usize) -> Option<usize> {
    let bracket = text[..at].iter().rposition(|&byte| matches!(byte, b'[' | b']'))?;
    let end = text[..bracket].iter().rposition(|&byte| byte != b' ')? + 1;
    let is_keyword =
        text[bracket] == b'[' && (text[..end].ends_with(b"DIA") || text[..end].ends_with(b"BOX"));
    is_keyword.then(|| end - 3)
}

/// The text with this keyword of three bytes become another, if the byte is this one.
fn with_keyword(text: &[u8], at: usize, byte: u8, other: &[u8; 3]) -> Option<Vec<u8>> {
    let keyword = keyword(text, at).filter(|_| text.get(at) == Some(&byte))?;
    let mut text = text.to_vec();
    text[keyword..keyword + 3].copy_from_slice(other);
    Some(text)
}

/// With `|` in place of an `&` in a set.
fn with_union(text: &[u8], at: usize) -> Option<Vec<u8>> {
    let bracket = text[..at].iter().rposition(|&byte| matches!(byte, b'[' | b']'))?;
    let mut text = text.to_vec();
    let is_and = text[bracket] == b'[' && text.get(at) == Some(&b'&');
    is_and.then(|| {
        text[at] = b'|';
        text
    })
}

/// Wrong in how it reads a formula.
fn reading(read_formula: fn(&[u8], &[u8], &mut [u8]) -> Reply) -> Entries {
    Entries { read_formula: Some(read_formula), ..NONE }
}

/// Wrong in how it expands a line: its fault stands at this place of the list.
fn expanding<const FAULT: usize>() -> Entries {
    reading(|table, text, formula| read_with(EXPANSION_FAULTS[FAULT].1, table, text, formula))
}

const EXPANSION_FAULTS: [(&str, Fault); 8] = [
    ("`|` binds tighter than `&`", Fault::OrBindsTighter),
    ("`&` and `|` bind alike", Fault::AndBindsAsOr),
    ("`&` is grouped from the right", Fault::GroupedFromTheRight),
    ("AG without its inner `~`", Fault::AlwaysWithoutInnerNot),
    ("BOX is DIA", Fault::BoxAsDiamond),
    ("EF goes on by silent steps only", Fault::EventuallyBySilentSteps),
    ("a double negation is simplified", Fault::DoubleNegationSimplified),
    ("`AG T` and `BOX[A] T` have a class", Fault::AlwaysOfTrue),
];

#[test]
fn faults_in_the_expansion_of_short_forms_are_found() {
    let wrong: [Entries; EXPANSION_FAULTS.len()] = [
        expanding::<0>(),
        expanding::<1>(),
        expanding::<2>(),
        expanding::<3>(),
        expanding::<4>(),
        expanding::<5>(),
        expanding::<6>(),
        expanding::<7>(),
    ];
    let named = EXPANSION_FAULTS.map(|(name, _)| name).into_iter().zip(wrong);
    all_are_found(&named.collect::<Vec<_>>());
}

#[test]
fn faults_in_what_is_measured_of_a_line_are_found() {
    all_are_found(&[
        (
            "8 counts the nodes of the line as typed",
            reading(|table, text, formula| match read_formula(table, text, formula) {
                Reply { number: 8, .. } => match Line::read(text).nodes() {
                    0..=MAX_NODES => Reply::accepted(0),
                    nodes => Reply { number: 8, figure: nodes as u64 },
                },
                reply => reply,
            }),
        ),
        (
            "7 is the offset in what is written out",
            reading(|table, text, formula| match read_formula(table, text, formula) {
                Reply { number: 7, .. } => {
                    let table = prepared::table_of(table).expect("a table");
                    let text = Line::read(text).written_out(Fault::None);
                    let refused = Formula::read_base(&table, text.as_bytes());
                    refused.expect_err("a name that the table lacks").into()
                }
                reply => reply,
            }),
        ),
        (
            "5 measures what is written out",
            reading(|table, text, formula| {
                let reply = read_formula(table, text, &mut formula.to_vec());
                let length = match reply.number {
                    0 | 7 | 8 | 9 => Line::read(text).written_out(Fault::None).len(),
                    _ => 0,
                };
                match length > MAX_BYTES {
                    true => Reply { number: 5, figure: length as u64 },
                    false => read_formula(table, text, formula),
                }
            }),
        ),
    ]);
}

#[test]
fn faults_in_the_borders_of_short_forms_are_found() {
    all_are_found(&[
        (
            "`.` is taken in DIA and BOX",
            reading(|table, text, formula| {
                read_retyped(table, text, formula, |text, at| with_keyword(text, at, b'.', b"EX "))
            }),
        ),
        (
            "`;` is taken in DIA and BOX",
            reading(|table, text, formula| {
                read_retyped(table, text, formula, |text, at| with_keyword(text, at, b';', b"EU "))
            }),
        ),
        (
            "`&` is taken in a set",
            reading(|table, text, formula| read_retyped(table, text, formula, with_union)),
        ),
        (
            "EF and AG need a blank behind them",
            reading(|table, text, formula| {
                let reply = read_formula(table, text, &mut formula.to_vec());
                let viable = match reply.number {
                    6 => reply.figure as usize,
                    0 | 7 | 8 | 9 => text.len(),
                    _ => return reply,
                };
                let is_keyword = |at: &usize| matches!(&text[at - 2..*at], b"EF" | b"AG");
                let is_without = |at: &usize| is_keyword(at) && text[*at] != b' ';
                match (2..viable).find(is_without) {
                    Some(at) => Reply { number: 6, figure: at as u64 },
                    None => read_formula(table, text, formula),
                }
            }),
        ),
    ]);
}

/// A prepared table as another one, if it is a table and there is one.
fn table_as(table: &[u8], other: impl Fn(&Table) -> Option<Table>) -> Vec<u8> {
    let read = table.get(..TABLE_LENGTH).and_then(prepared::table_of);
    let other = read.and_then(|table| other(&table)).map(|other| prepared::table_bytes(&other));
    other.unwrap_or_else(|| table.to_vec())
}

/// With silent loops in place of idle steps.
fn idle_as_silent(table: &[u8]) -> Vec<u8> {
    table_as(table, |table| with_loops(table, SILENT))
}

/// With idle steps in place of silent loops that are a state's only exit.
fn silent_as_idle(table: &[u8]) -> Vec<u8> {
    table_as(table, |table| Some(without_lone_loops(table)))
}

/// What an idle step means to a wrong explainer, which has it as a step by a label of its own.
trait Rule {
    /// Whether a formula can be asked in this way: no label of its own meets `.`.
    fn is_askable(node: &Node) -> bool {
        !matches!(node, Node::Next(Condition::Silent, _) | Node::AllNext(Condition::Silent, _))
    }

    /// Whether an until goes on by it.
    const PASSES: bool = true;

    /// Whether it meets a set over so many labels.
    fn meets(_: Set, _: usize) -> bool {
        false
    }
}

/// No fault, of formulas without `.`.
struct AsItIs;
struct NotMetByTheSilentStep;
struct MetByAComplement;
struct StopsAnUntil;

impl Rule for AsItIs {}

impl Rule for NotMetByTheSilentStep {
    fn is_askable(_: &Node) -> bool {
        true
    }
}

impl Rule for MetByAComplement {
    fn meets(set: Set, labels: usize) -> bool {
        set.complement(labels).0.is_power_of_two()
    }
}

impl Rule for StopsAnUntil {
    const PASSES: bool = false;
}

/// A question in which idle steps are written by one more label, and that label.
struct Respelled {
    table: Vec<u8>,
    formula: Vec<u8>,
    label: u8,
}

/// None if the question is refused or cannot be asked so.
fn respelled<R: Rule>(table: &[u8], formula: &[u8]) -> Option<Respelled> {
    let mut read = prepared::table_of(table.get(..TABLE_LENGTH)?)?;
    let labels = read.labels();
    let mut asked = prepared::formula_of(formula.get(..FORMULA_LENGTH)?, labels)?;
    if labels == MAX_LABELS || !asked.nodes.iter().all(R::is_askable) {
        return None;
    }
    let label = labels as u8 + 1;
    let with = |set: Set, is_in: bool| if is_in { set.union(Set::of(label)) } else { set };
    let meeting = |set: Set| with(set, R::meets(set, labels));
    let passing = |set: Set| with(set, R::PASSES);
    let among = |condition| match condition {
        Condition::Among(set) => Condition::Among(meeting(set)),
        Condition::Silent => Condition::Silent,
    };
    for node in &mut asked.nodes {
        *node = match *node {
            Node::Next(condition, arm) => Node::Next(among(condition), arm),
            Node::AllNext(condition, arm) => Node::AllNext(among(condition), arm),
            Node::Until(set, arm) => Node::Until(passing(set), arm),
            Node::UntilThen(set, then, arm) => Node::UntilThen(passing(set), meeting(then), arm),
            other => other,
        };
    }
    // No name of the generators' begins so.
    read.names.push(b"q_idle".to_vec());
    let table = prepared::table_bytes(&with_loops(&read, label)?);
    Some(Respelled { table, formula: prepared::formula_bytes(&asked), label })
}

/// Wrong in what an idle step meets or passes.
fn ruled_by<R: Rule>() -> Entries {
    Entries {
        verdict: Some(|table, formula| match respelled::<R>(table, formula) {
            Some(other) => verdict(&other.table, &other.formula),
            None => verdict(table, formula),
        }),
        verdicts: Some(|table, formula, starts, answers| match respelled::<R>(table, formula) {
            Some(other) => verdicts(&other.table, &other.formula, starts, answers),
            None => verdicts(table, formula, starts, answers),
        }),
        build: Some(|table, formula, rows, edges, edge_count| {
            let Some(other) = respelled::<R>(table, formula) else {
                return build(table, formula, rows, edges, edge_count);
            };
            let reply = build(&other.table, &other.formula, rows, edges, edge_count);
            let count = if reply.number == 0 { *edge_count as usize } else { 0 };
            for edge in edges.chunks_mut(EDGE_PLACE).take(count) {
                edge[2] = if edge[2] == other.label { IDLE } else { edge[2] };
            }
            reply
        }),
        accepts: Some(|table, formula, word| {
            let reply = accepts(table, formula, word);
            match respelled::<R>(table, formula).filter(|_| reply.number == 0) {
                Some(other) => {
                    accepts(&other.table, &other.formula, &exchanged(word, IDLE, other.label))
                }
                None => reply,
            }
        }),
        ..NONE
    }
}

#[test]
fn faults_in_the_silence_of_idle_steps_are_found() {
    println!("99 is not met by `.`");
    all_are_found(&one_by_one(ruled_by::<NotMetByTheSilentStep>()));
    println!("99 is met by `~req`");
    all_are_found(&one_by_one(ruled_by::<MetByAComplement>()));
    println!("99 stops an until");
    // No verdict depends on it: an idle step leads nowhere else.
    let wrong = Entries { verdict: None, verdicts: None, ..ruled_by::<StopsAnUntil>() };
    all_are_found(&one_by_one(wrong));
}

#[test]
fn faults_in_the_letter_of_idle_steps_are_found() {
    println!("an idle step is 0, in words the letter 99 too");
    all_are_found(&one_by_one(Entries {
        build: Some(|table, formula, rows, edges, edge_count| {
            build(&idle_as_silent(table), formula, rows, edges, edge_count)
        }),
        accepts: Some(|table, formula, word| match accepts(table, formula, word) {
            Reply { number: 0, .. } => {
                accepts(&idle_as_silent(table), formula, &exchanged(word, IDLE, SILENT))
            }
            refused => refused,
        }),
        ..NONE
    }));
    println!("a silent loop that is a state's only exit is 99");
    all_are_found(&one_by_one(Entries {
        build: Some(|table, formula, rows, edges, edge_count| {
            build(&silent_as_idle(table), formula, rows, edges, edge_count)
        }),
        accepts: Some(|table, formula, word| accepts(&silent_as_idle(table), formula, word)),
        ..NONE
    }));
}

/// A letter that is refused and leads nowhere if it is not.
fn taking<const LETTER: u8>() -> Entries {
    Entries {
        accepts: Some(|table, formula, word| {
            let has_letter = word.contains(&LETTER);
            match accepts(table, formula, &exchanged(word, LETTER, IDLE)) {
                Reply { number: 0, .. } if has_letter => Reply::accepted(0),
                reply => reply,
            }
        }),
        ..NONE
    }
}

#[test]
fn faults_in_what_is_a_letter_of_a_word_are_found() {
    all_are_found(&[
        (
            "99 is refused",
            Entries {
                accepts: Some(|table, formula, word| {
                    accepts(table, formula, &exchanged(word, IDLE, u8::MAX))
                }),
                ..NONE
            },
        ),
        (
            "99 is refused over a table without idle steps",
            Entries {
                accepts: Some(|table, formula, word| {
                    let reply = accepts(table, formula, word);
                    match reply.number == 0 && idle_as_silent(table) == table {
                        true => accepts(table, formula, &exchanged(word, IDLE, u8::MAX)),
                        false => reply,
                    }
                }),
                ..NONE
            },
        ),
        (
            "99 leads nowhere",
            Entries {
                accepts: Some(|table, formula, word| match accepts(table, formula, word) {
                    Reply { number: 0, .. } if word.contains(&IDLE) => Reply::accepted(0),
                    reply => reply,
                }),
                ..NONE
            },
        ),
        (
            "0 stands for the idle step beside 99",
            Entries {
                accepts: Some(|table, formula, word| match accepts(table, formula, word) {
                    Reply { number: 0, figure: 0 } => {
                        accepts(&idle_as_silent(table), formula, word)
                    }
                    reply => reply,
                }),
                ..NONE
            },
        ),
        ("98 is taken", taking::<98>()),
        ("100 is taken", taking::<100>()),
        ("41 is taken", taking::<41>()),
        ("255 is taken", taking::<255>()),
    ]);
}

/// The program whose refusals print another figure, if one is given.
fn first_folder_found(name: &str, figure: fn(u64, u64) -> u64) -> Option<u64> {
    let place = std::env::temp_dir().join(format!("second-mutants-{}-{name}", std::process::id()));
    let wrong = |folder: &Path| {
        let mut stdout = print::explain_folder(folder);
        let text = str::from_utf8(&stdout).expect("ASCII");
        if text.lines().count() == 1 && text.len() < 25 {
            let number = text[..6].trim_start().parse().expect("a number");
            let right = text[6..].trim().parse().expect("a figure");
            stdout = format!("{number:>6}{:>6}\n", figure(number, right)).into_bytes();
        }
        Ok(Output { status: ExitStatus::default(), stdout, stderr: Vec::new() })
    };
    let told = program::run(wrong, &place, SEED, FOLDERS).err();
    // The folder is kept only at a difference.
    let _ = fs::remove_dir_all(&place);
    let index = told.map(|told| told["folder ".len()..].split(' ').next().map(str::parse));
    index.flatten().map(|index| index.expect("the folder's number"))
}

#[test]
fn wrong_figures_of_the_programs_rare_refusals_are_found() {
    type Figure = fn(u64, u64) -> u64;
    let mutants: [(&str, Figure); 8] = [
        ("2 on line 30 or later", |number, figure| figure - u64::from(number == 2 && figure >= 30)),
        ("4 on line 30 or later", |number, figure| figure - u64::from(number == 4 && figure >= 30)),
        ("7 at offset 64 or later", |number, figure| {
            figure + u64::from(number == 7 && figure >= 64)
        }),
        ("8 of 45 to 69 nodes", |number, figure| {
            figure + u64::from(number == 8 && (45..70).contains(&figure))
        }),
        ("9 at node 10 or later", |number, figure| figure - u64::from(number == 9 && figure >= 10)),
        (
            "11 of 2,000 rows or more",
            |number, figure| {
                if number == 11 { figure.min(2_000) } else { figure }
            },
        ),
        (
            "12 of 5,000 edges or more",
            |number, figure| {
                if number == 12 { figure.min(5_000) } else { figure }
            },
        ),
        (
            "12 of 65,536 edges or more",
            |number, figure| {
                if number == 12 { figure & 0xffff } else { figure }
            },
        ),
    ];
    let mut missed = Vec::new();
    for (name, figure) in mutants {
        let found = first_folder_found(&name.replace([' ', ','], "-"), figure);
        println!("{name}: {found:?}");
        missed.extend(found.is_none().then_some(name));
    }
    assert_eq!(missed, [""; 0]);
}

#[test]
fn the_explainers_under_the_mutants_agree() {
    assert_eq!(fuzz::run(&SECOND, &BASELINE, SEED, 2_000, |_| ()), Ok(()));
    let written_out = Entries {
        read_formula: Some(|table, text, formula| read_with(Fault::None, table, text, formula)),
        ..NONE
    };
    assert_eq!(fuzz::run(&SECOND, &written_out, SEED, 20_000, |_| ()), Ok(()));
    assert_eq!(fuzz::run(&SECOND, &ruled_by::<AsItIs>(), SEED, 5_000, |_| ()), Ok(()));
}
