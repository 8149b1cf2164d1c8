//! Explainers that write formulas back wrongly in one thing. The gate's inputs find each of them.

mod common;

use common::found::all_are_found;
use second::baseline::write_formula;
use second::entries::{Entries, NONE};
use second::formula::{Condition, Formula, MAX_BYTES, Node, Set};
use second::prepared::{self, TABLE_LENGTH};
use second::reply::Reply;
use second::table::{Direction, Table};
use second::writing;

/// A text made from a table, a formula and the right text.
type Text = fn(&Table, &Formula, &str) -> String;

/// Writes another text of what is prepared; refusals 10 and 14 are right.
fn written(table: &[u8], formula: &[u8], lent: &mut [u8], text: Text) -> Reply {
    let reply = write_formula(table, formula, &mut lent.to_vec());
    if matches!(reply.number, 10 | 14) {
        return reply;
    }
    let table = prepared::table_of(table).expect("a table");
    let formula = prepared::formula_of(formula, table.labels()).expect("a formula");
    let right = String::from_utf8(writing::text(&table, &formula)).expect("ASCII");
    let text = text(&table, &formula, &right);
    let length = text.len() as u64;
    match text.len() > MAX_BYTES {
        true => Reply { number: 15, figure: length },
        false => {
            lent[..text.len()].copy_from_slice(text.as_bytes());
            Reply::accepted(length)
        }
    }
}

/// By the text that is written instead.
macro_rules! texts {
    ($($name:literal: $text:expr,)*) => {
        all_are_found(&[$((
            $name,
            Entries {
                write_formula: Some(|table, formula, lent| written(table, formula, lent, $text)),
                ..NONE
            },
        )),*])
    };
}

/// Where a node stands.
#[derive(Clone, Copy, PartialEq, Eq)]
enum Place {
    Root,
    LeftOfOr,
    RightOfOr,
    Below(Node),
}

/// With brackets where this says so.
fn grouped(table: &Table, formula: &Formula, are_needed: fn(Place, Node) -> bool) -> String {
    term(table, formula, 0, Place::Root, are_needed)
}

fn term(
    table: &Table,
    formula: &Formula,
    number: usize,
    place: Place,
    are_needed: fn(Place, Node) -> bool,
) -> String {
    let node = formula.nodes[number];
    let arm = |arm: usize, place: Place| term(table, formula, arm, place, are_needed);
    let text = match node {
        Node::True => "T".into(),
        Node::Or(left, right) => {
            format!("{}|{}", arm(left, Place::LeftOfOr), arm(right, Place::RightOfOr))
        }
        _ => {
            let only = node.arms().next().expect("an arm");
            head(table, node) + &arm(only, Place::Below(node))
        }
    };
    if are_needed(place, node) { format!("({text})") } else { text }
}

/// What stands before the node's only arm.
fn head(table: &Table, node: Node) -> String {
    let over_true = Formula { nodes: vec![node.with_arms(|_| 1), Node::True] };
    let mut text = String::from_utf8(writing::text(table, &over_true)).expect("ASCII");
    text.pop();
    text
}

fn is_or(node: Node) -> bool {
    matches!(node, Node::Or(..))
}

#[test]
fn faults_in_brackets_and_blanks_are_found() {
    texts! {
        "no brackets around the right arm of `|`": |table, formula, _| {
            grouped(table, formula, |place, node| is_or(node) && matches!(place, Place::Below(_)))
        },
        "brackets around the left arm of `|`": |table, formula, _| {
            grouped(table, formula, |place, node| is_or(node) && place != Place::Root)
        },
        "brackets around the root": |table, formula, _| {
            grouped(table, formula, |_, node| is_or(node))
        },
        "no brackets below `~`": |table, formula, _| {
            grouped(table, formula, |place, node| {
                let is_open = matches!(place, Place::Root | Place::LeftOfOr);
                is_or(node) && !is_open && !matches!(place, Place::Below(Node::Not(_)))
            })
        },
        "no brackets below EX and AX of the silent step": |table, formula, _| {
            grouped(table, formula, |place, node| {
                let is_open = matches!(
                    place,
                    Place::Root | Place::LeftOfOr | Place::Below(Node::Next(Condition::Silent, _))
                );
                is_or(node) && !is_open
            })
        },
        "no brackets below EU with two sets": |table, formula, _| {
            grouped(table, formula, |place, node| {
                let is_open = matches!(
                    place,
                    Place::Root | Place::LeftOfOr | Place::Below(Node::UntilThen(..))
                );
                is_or(node) && !is_open
            })
        },
        "brackets around `~` below `~`": |table, formula, _| {
            grouped(table, formula, |place, node| match place {
                Place::Below(Node::Not(_)) => is_or(node) || matches!(node, Node::Not(_)),
                Place::Below(_) | Place::RightOfOr => is_or(node),
                _ => false,
            })
        },
        "no blank behind `]`": |_, _, text| text.replace("] ", "]"),
        "none before `(`": |_, _, text| text.replace("] (", "]("),
        "none before `~`": |_, _, text| text.replace("] ~", "]~"),
        "a blank behind `;`": |_, _, text| text.replace(';', "; "),
        "blanks about `|` outside sets": |_, _, text| text.replace("T|", "T | "),
    }
}

/// With each set become another text.
fn with_sets(
    table: &Table,
    formula: &Formula,
    text: &str,
    other: fn(&Table, Set, &str) -> String,
) -> String {
    let nodes = formula.nodes.iter().copied();
    let sets = nodes.flat_map(|node| match node {
        Node::Next(Condition::Among(set), _)
        | Node::AllNext(Condition::Among(set), _)
        | Node::Until(set, _) => vec![Some(set)],
        Node::UntilThen(set, then, _) => vec![Some(set), Some(then)],
        Node::Next(..) | Node::AllNext(..) => vec![None],
        Node::True | Node::Not(_) | Node::Or(..) => Vec::new(),
    });
    let mut sets = sets.collect::<Vec<_>>().into_iter();
    let parts = text.split_inclusive('[').map(|part| match part.split_once(']') {
        None => part.to_owned(),
        Some((inside, rest)) => {
            let written = inside.split(';').map(|set| match sets.next().expect("a set for each") {
                Some(labels) => other(table, labels, set),
                None => set.to_owned(),
            });
            format!("{}]{rest}", written.collect::<Vec<_>>().join(";"))
        }
    });
    parts.collect()
}

fn named(table: &Table, set: Set) -> Vec<&str> {
    let names = table.names.iter().zip(1..).filter(|(_, label)| set.has(*label));
    names.map(|(name, _)| str::from_utf8(name).expect("ASCII")).collect()
}

/// By what is written for a set instead.
macro_rules! sets {
    ($($name:literal: $set:expr,)*) => {
        texts! { $($name: |table, formula, text| with_sets(table, formula, text, $set),)* }
    };
}

#[test]
fn faults_in_sets_are_found() {
    sets! {
        "all labels by name": |table, set, text| match set == Set::all(table.labels()) {
            true if set != Set::EMPTY => named(table, set).join("|"),
            _ => text.into(),
        },
        "the only label by name": |table, set, text| match table.labels() == 1 {
            true if set != Set::EMPTY => named(table, set).join("|"),
            _ => text.into(),
        },
        "no label of none as `~*`": |table, _, text| match table.labels() {
            0 => "~*".into(),
            _ => text.into(),
        },
        "no label as `*`": |_, set, text| if set == Set::EMPTY { "*".into() } else { text.into() },
        "all labels but one as a complement": |table, set, text| {
            let others = named(table, set.complement(table.labels()));
            match others.len() == 1 && table.labels() > 2 {
                true => format!("~{}", others[0]),
                false => text.into(),
            }
        },
        "names fall": |_, _, text| text.rsplit('|').collect::<Vec<_>>().join("|"),
        "names rise as text": |_, _, text| {
            let mut names: Vec<&str> = text.split('|').collect();
            names.sort_unstable();
            names.join("|")
        },
        "label 40 is lost": |_, set, text| match (set.has(40), text.rsplit_once('|')) {
            (true, Some((others, _))) => others.into(),
            _ => text.into(),
        },
        "label 32 is lost": |table, set, text| match set.has(32) && text != "*" {
            true => named(table, Set(set.0 & !(1 << 32))).join("|"),
            false => text.into(),
        },
        "all received labels as `?`": |table, set, text| {
            match set == Set::going(Direction::In, table) && text.contains('?') {
                true => "?".into(),
                false => text.into(),
            }
        },
        "names without their marks": |_, _, text| text.replace(['?', '!'], ""),
        "names of thirteen bytes without their marks": |_, _, text| {
            let names = text.split('|').map(|name| if name.len() == 13 { &name[..12] } else { name });
            names.collect::<Vec<_>>().join("|")
        },
        "a blank about `|` in a set": |_, _, text| text.replace('|', " |"),
        "the silent step by its number in a set": |_, set, text| match set == Set::EMPTY {
            true => ".".into(),
            false => text.into(),
        },
    }
}

#[test]
fn faults_in_forms_are_found() {
    texts! {
        "EF for EU of all labels": |_, _, text| text.replace("EU[*] ", "EF "),
        "DIA for EX of a set": |_, _, text| text.replace("EX[*", "DIA[*"),
        "a double negation is simplified": |_, _, text| text.replace("~~", ""),
        "`&` for what it stands for": |_, _, text| text.replace("~(~~T|~~T)", "~T&~T"),
        "a second set that is all labels is left out": |_, _, text| text.replace(";*]", "]"),
        "AX as EX": |_, _, text| text.replace("AX", "EX"),
    }
}

#[test]
fn faults_in_replies_are_found() {
    let wrong = |name: &'static str, entry: second::entries::WriteFormula| {
        (name, Entries { write_formula: Some(entry), ..NONE })
    };
    all_are_found(&[
        wrong("512 bytes are too many", |table, formula, text| {
            let before = text.to_vec();
            match write_formula(table, formula, text) {
                Reply { number: 0, figure: 512 } => {
                    text.copy_from_slice(&before);
                    Reply { number: 15, figure: 512 }
                }
                reply => reply,
            }
        }),
        wrong(
            "513 bytes are written as far as they go",
            |table, formula, text| match write_formula(table, formula, text) {
                Reply { number: 15, figure: 513 } => Reply::accepted(512),
                reply => reply,
            },
        ),
        wrong("the needed length is 513", |table, formula, text| {
            match write_formula(table, formula, text) {
                Reply { number: 15, .. } => Reply { number: 15, figure: 513 },
                reply => reply,
            }
        }),
        wrong("a needed length from 32,768 on is cut", |table, formula, text| match write_formula(
            table, formula, text,
        ) {
            Reply { number: 15, figure } => Reply { number: 15, figure: figure & 0x7fff },
            reply => reply,
        }),
        wrong("the beginning of a text that is too long is written", |table, formula, text| {
            let reply = write_formula(table, formula, text);
            if reply.number == 15 {
                text[0] = b'E';
            }
            reply
        }),
        wrong("the byte behind the text is cleared", |table, formula, text| {
            let reply = write_formula(table, formula, text);
            if let (0, Some(byte)) = (reply.number, text.get_mut(reply.figure as usize)) {
                *byte = 0;
            }
            reply
        }),
        wrong("the last byte of 512 is not written", |table, formula, text| {
            let last = text.get(511).copied();
            let reply = write_formula(table, formula, text);
            if let (0, 512, Some(byte)) = (reply.number, reply.figure, last) {
                text[511] = byte;
            }
            reply
        }),
        wrong("511 bytes are enough to lend", |table, formula, text| {
            let mut longer = [&*text, &[0]].concat();
            match write_formula(table, formula, &mut longer) {
                reply @ Reply { number: 0, .. }
                    if longer.len() > text.len() && text.len() == 511 =>
                {
                    text.copy_from_slice(&longer[..511]);
                    reply
                }
                _ => write_formula(table, formula, text),
            }
        }),
        wrong("what is lent may be as short as the text", |table, formula, text| {
            let mut longer = [&*text, &[0; 512]].concat();
            match write_formula(table, formula, &mut longer) {
                reply @ Reply { number: 0, figure } if figure as usize <= text.len() => {
                    text.copy_from_slice(&longer[..text.len()]);
                    reply
                }
                _ => write_formula(table, formula, text),
            }
        }),
        wrong("10 comes before 14 of the text", |table, formula, text| {
            let whole = write_formula(table, formula, &mut [0; 512]);
            match whole.number {
                10 => whole,
                _ => write_formula(table, formula, text),
            }
        }),
        wrong("14 of the text comes before 14 of the formula", |table, formula, text| {
            match text.len() < MAX_BYTES && table.len() >= TABLE_LENGTH {
                true => Reply { number: 14, figure: 512 },
                false => write_formula(table, formula, text),
            }
        }),
        wrong("15 comes before 14 of the text", |table, formula, text| {
            let whole = write_formula(table, formula, &mut [0; 512]);
            match whole.number == 15 {
                true => whole,
                false => write_formula(table, formula, text),
            }
        }),
        wrong("10 does not tell the formula from the table", |table, formula, text| {
            match write_formula(table, formula, text) {
                Reply { number: 10, .. } => Reply { number: 10, figure: 0 },
                reply => reply,
            }
        }),
    ]);
}
