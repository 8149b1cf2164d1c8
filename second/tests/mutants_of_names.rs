//! Explainers that compare names wrongly in one thing: where a formula's name is looked up (7 or a
//! label), where a table's text has a name again (3), where prepared bytes have one in two slots (10).
//! The gate's inputs find each of them.

mod common;

use std::cell::Cell;

use common::found::{SEED, all_are_found};
use second::baseline::{accepts, read_formula, read_table, verdict};
use second::entries::{Entries, NONE, SECOND};
use second::formula::MAX_BYTES;
use second::fuzz;
use second::prepared::{self, FORMULA_LENGTH, NAME_SLOT, NAMES, TABLE_LENGTH};
use second::reply::{Refusal, Reply};
use second::table::{is_name, is_name_byte};

/// Whether a known name is taken for the one that is sought.
type Same = fn(&[u8], &[u8]) -> bool;

/// Of one length and equal, but for the bytes that are skipped, by place and length.
fn same_but(known: &[u8], sought: &[u8], skipped: impl Fn(usize, usize) -> bool) -> bool {
    let length = known.len();
    let is_same = |at: usize| skipped(at, length) || known[at] == sought[at];
    length == sought.len() && (0..length).all(is_same)
}

fn same_unless(known: &[u8], sought: &[u8], length: usize) -> bool {
    known == sought && known.len() != length
}

/// A name, or what is left of it without its mark.
fn stem(name: &[u8]) -> &[u8] {
    name.strip_suffix(b"?").or(name.strip_suffix(b"!")).unwrap_or(name)
}

/// Hands the faults to a macro.
macro_rules! faults {
    ($rows:ident) => {
        $rows! {
            "a beginning of a name is taken for it": |known, sought| known.starts_with(sought),
            "a name is taken for what begins with it": |known, sought| sought.starts_with(known),
            "the mark is left out": |known, sought| stem(known) == stem(sought),
            "one mark is taken for the other": |known, sought| {
                known.len() == sought.len() && stem(known) == stem(sought)
            },
            "the first byte is skipped": |known, sought| same_but(known, sought, |at, _| at == 0),
            "the last byte is skipped": |known, sought| {
                same_but(known, sought, |at, length| at + 1 == length)
            },
            "of eight bytes and more the first eight": |known, sought| {
                same_but(known, sought, |at, _| at >= 8)
            },
            "of eight bytes and more the last eight": |known, sought| {
                same_but(known, sought, |at, length| at + 8 < length)
            },
            "of eight bytes and more the first four and the last four": |known, sought| {
                same_but(known, sought, |at, length| length >= 8 && at >= 4 && at + 4 < length)
            },
            "of nine bytes and more all but one in the middle": |known, sought| {
                same_but(known, sought, |at, length| length >= 9 && at == length / 2)
            },
            "of thirteen bytes the first twelve": |known, sought| {
                same_but(known, sought, |at, _| at == 12)
            },
            "of four to seven bytes the first four": |known, sought| {
                same_but(known, sought, |at, length| length < 8 && at >= 4)
            },
            "of four to seven bytes the last four": |known, sought| {
                same_but(known, sought, |at, length| length < 8 && at + 4 < length)
            },
            "of three bytes the first two": |known, sought| {
                same_but(known, sought, |at, length| length == 3 && at == 2)
            },
            "of three bytes the first and the last": |known, sought| {
                same_but(known, sought, |at, length| length == 3 && at == 1)
            },
            "of two bytes the first": |known, sought| {
                same_but(known, sought, |at, length| length == 2 && at == 1)
            },
            "of one byte none": |known, sought| same_but(known, sought, |_, length| length == 1),
            "none of one byte is known": |known, sought| same_unless(known, sought, 1),
            "none of three bytes is known": |known, sought| same_unless(known, sought, 3),
            "none of four bytes is known": |known, sought| same_unless(known, sought, 4),
            "none of seven bytes is known": |known, sought| same_unless(known, sought, 7),
            "none of eight bytes is known": |known, sought| same_unless(known, sought, 8),
            "none of twelve bytes is known": |known, sought| same_unless(known, sought, 12),
            "none of thirteen bytes is known": |known, sought| same_unless(known, sought, 13),
        }
    };
}

fn length_of_name(text: &[u8]) -> usize {
    let letters = text.iter().take_while(|&&byte| is_name_byte(byte)).count();
    letters + usize::from(letters > 0 && matches!(text.get(letters), Some(b'?' | b'!')))
}

/// A line that is grammatical is read with each of its names become that of the first label that is
/// taken for it, unless it became too long.
fn looked_up(same: Same, table: &[u8], text: &[u8], formula: &mut [u8]) -> Reply {
    let reply = read_formula(table, text, &mut formula.to_vec());
    if !matches!(reply.number, 0 | 7 | 8 | 9) {
        return reply;
    }
    let names = prepared::table_of(table).expect("a table").names;
    let mut other = Vec::new();
    let mut at = 0;
    while at < text.len() {
        let sought = &text[at..at + length_of_name(&text[at..])];
        if sought.is_empty() {
            other.push(text[at]);
            at += 1;
            continue;
        }
        match names.iter().find(|known| same(known, sought)) {
            Some(known) => other.extend_from_slice(known),
            None => return Refusal::UnknownName(at).into(),
        }
        at += sought.len();
    }
    let text = if other.len() > MAX_BYTES { text } else { &other };
    read_formula(table, text, formula)
}

/// The first name that is taken for one before it.
fn first_again(same: Same, names: &[Vec<u8>]) -> Option<usize> {
    (0..names.len()).find(|&at| names[..at].iter().any(|known| same(known, &names[at])))
}

/// A table's text, of which nothing but its names may be wrong.
fn used_before(same: Same, text: &[u8], table: &mut [u8]) -> Reply {
    let before = table.to_vec();
    let reply = read_table(text, table);
    let lines = match reply.number {
        0 => 1 + usize::from(table[2]),
        3 => reply.figure as usize,
        _ => return reply,
    };
    let lines = text.split(|&byte| byte == b'\n').take(lines).skip(1);
    let names: Vec<Vec<u8>> = lines.map(|line| line[7..].to_vec()).collect();
    match first_again(same, &names) {
        Some(at) => {
            table.copy_from_slice(&before);
            Refusal::NameUsed(at + 2).into()
        }
        None => Reply::accepted(0),
    }
}

/// The names of prepared bytes that are long enough, one for each label, if each is one.
fn prepared_names(table: &[u8]) -> Option<Vec<Vec<u8>>> {
    let slots = table[NAMES..].chunks(NAME_SLOT).take(table[2].into());
    let name = |slot: &[u8]| Some(slot.get(1..=slot[0].into())?.to_vec());
    slots.map(|slot| name(slot).filter(|name| is_name(name))).collect()
}

/// Prepared bytes as they are checked: none if a name is taken for one before it. A name that is there
/// before and not taken so becomes another.
fn checked(same: Same, table: &[u8]) -> Option<Vec<u8>> {
    let mut bytes = table.to_vec();
    let Some(names) = prepared_names(table) else {
        return Some(bytes);
    };
    for at in (0..names.len()).filter(|&at| names[..at].contains(&names[at])) {
        // No name of the generators' begins so.
        bytes[NAMES + at * NAME_SLOT + 1] = b'q';
    }
    first_again(same, &names).is_none().then_some(bytes)
}

/// Answers over the bytes as they are checked, if they are long enough.
fn over_checked(
    same: Same,
    table: &[u8],
    short: bool,
    answer: impl FnOnce(&[u8]) -> Reply,
) -> Reply {
    if short || table.len() < TABLE_LENGTH {
        return answer(table);
    }
    checked(same, table).map_or(Refusal::PreparedTable.into(), |bytes| answer(&bytes))
}

/// Wrong in looking a name up.
macro_rules! lookup {
    ($($name:literal: $same:expr,)*) => {[$((
        $name,
        Entries {
            read_formula: Some(|table, text, formula| looked_up($same, table, text, formula)),
            ..NONE
        },
    )),*]};
}

/// Wrong in what name is used before.
macro_rules! used {
    ($($name:literal: $same:expr,)*) => {[$((
        $name,
        Entries { read_table: Some(|text, table| used_before($same, text, table)), ..NONE },
    )),*]};
}

/// Wrong in what prepared name is there before.
macro_rules! check {
    ($($name:literal: $same:expr,)*) => {[$((
        $name,
        Entries {
            read_formula: Some(|table, text, formula| {
                let short = formula.len() < FORMULA_LENGTH;
                over_checked($same, table, short, |table| read_formula(table, text, formula))
            }),
            verdict: Some(|table, formula| {
                let short = formula.len() < FORMULA_LENGTH;
                over_checked($same, table, short, |table| verdict(table, formula))
            }),
            accepts: Some(|table, formula, word| {
                let short = formula.len() < FORMULA_LENGTH;
                over_checked($same, table, short, |table| accepts(table, formula, word))
            }),
            ..NONE
        },
    )),*]};
}

#[test]
fn faults_in_looking_a_name_up_are_found() {
    all_are_found(&faults!(lookup));
}

#[test]
fn faults_in_what_name_a_table_uses_again_are_found() {
    all_are_found(&faults!(used));
}

#[test]
fn faults_in_what_name_prepared_bytes_have_again_are_found() {
    let wrong = faults!(check);
    println!("read_formula");
    all_are_found(&wrong.map(|(name, of)| (name, Entries { verdict: None, accepts: None, ..of })));
    println!("verdict");
    all_are_found(
        &wrong.map(|(name, of)| (name, Entries { read_formula: None, accepts: None, ..of })),
    );
    println!("accepts");
    all_are_found(
        &wrong.map(|(name, of)| (name, Entries { read_formula: None, verdict: None, ..of })),
    );
}

thread_local! {
    /// The byte that is skipped, by place and length of the name.
    static SKIPPED: Cell<(usize, usize)> = const { Cell::new((0, 0)) };
}

/// At every place of names of every length, in all three comparisons.
#[test]
fn a_byte_of_a_name_that_is_not_compared_is_found() {
    macro_rules! skipping {
        ($place:ident) => {
            $place! {
                "this byte": |known, sought| {
                    same_but(known, sought, |at, length| (at, length) == SKIPPED.get())
                },
            }
        };
    }
    for (length, at) in (1..=13).flat_map(|length| (0..length).map(move |at| (length, at))) {
        SKIPPED.set((at, length));
        println!("byte {at} of {length}: looked up, used before, in two slots");
        all_are_found(&skipping!(lookup));
        all_are_found(&skipping!(used));
        let [(name, of)] = skipping!(check);
        all_are_found(&[(name, Entries { verdict: of.verdict, ..NONE })]);
    }
}

#[test]
fn the_comparisons_under_the_mutants_are_right() {
    macro_rules! right {
        ($place:ident) => {
            $place! { "right": |known, sought| known == sought, }
        };
    }
    for [(name, right)] in [right!(lookup), right!(used), right!(check)] {
        assert_eq!(fuzz::run(&SECOND, &right, SEED, 20_000, |_| ()), Ok(()), "{name}");
    }
}
