//! Texts of formulas, with all the faults that 5 to 9 refuse. What is wrong with a name's mark is in
//! `marks`, what is wrong about a short form in `short`.

use super::alike::near;
use super::bytes::{damage, damage_an_end, random_bytes};
use super::formulas::{
    absent_name, class, formula, is_name, node_count, small_tokens, spaced, tokens,
};
use super::kinds::{Way, pick, way};
use super::rng::Rng;
use super::tables::name;
use super::{marks, short};
use crate::formula::{Class, MAX_BYTES, MAX_NODES};
use crate::table::{MAX_STEM, Table};

/// Texts to read, of a formula over the table or near it.
pub const TEXTS: [Way<Table, Vec<u8>>; 36] = [
    way("as written", 44, &[0, 5], |rng, table| {
        let tokens = some_tokens(rng, table);
        spaced(rng, &tokens)
    }),
    way("tokens faulty", 24, &[6, 7], |rng, table| {
        let tokens = faulty_tokens(rng, table);
        spaced(rng, &tokens)
    }),
    way("bytes damaged", 20, &[6], |rng, table| {
        let tokens = some_tokens(rng, table);
        let mut text = spaced(rng, &tokens);
        damage(rng, &mut text);
        text
    }),
    way("tokens faulty, bytes damaged", 8, &[6], |rng, table| {
        let tokens = faulty_tokens(rng, table);
        let mut text = spaced(rng, &tokens);
        damage(rng, &mut text);
        text
    }),
    way("an end damaged", 4, &[6], |rng, table| {
        let mut text = some_tokens(rng, table).concat();
        damage_an_end(rng, &mut text);
        text
    }),
    way("name that the table lacks", 6, &[7], lacking_name),
    way("name unknown only by its mark", 3, &[7], marks::unknown_by_mark),
    way("operands of a direction", 12, &[0], marks::directed),
    way("a mark doubled", 2, &[6], |rng, table| marks::in_formula(rng, table, marks::double)),
    way("a blank before a mark", 2, &[6], |rng, table| {
        marks::in_formula(rng, table, marks::separate)
    }),
    way("thirteen letters before a mark", 2, &[6], |rng, table| {
        marks::in_formula(rng, table, marks::lengthen)
    }),
    way("another mark", 2, &[7], |rng, table| marks::in_formula(rng, table, marks::exchange)),
    way("a mark dropped", 2, &[7], |rng, table| marks::in_formula(rng, table, marks::remove)),
    way("a mark added", 3, &[6, 7], marks::added_in_formula),
    way("short forms", 16, &[0], short::line),
    way("short forms of 39 to 41 nodes", 4, &[0, 8], short::about_forty_nodes),
    way("short forms in 511 to 513 bytes", 4, &[0, 5], short::about_512_bytes),
    way("short forms of up to 1,277 nodes", 2, &[8], |rng, _| short::most_nodes(rng)),
    way("short forms without class", 3, &[9], short::without_class),
    way("`&` beside `|`", 3, &[9], short::beside_or),
    way("name that the table lacks behind a short form", 3, &[7], short::lacking_name),
    way("a short form cut off", 2, &[6], short::cut_off),
    way("a part of a keyword", 2, &[6], short::keyword_in_part),
    way("a blank in a keyword", 1, &[6], short::keyword_with_blank),
    way("another keyword", 1, &[6], short::other_keyword),
    way("a set behind EF or AG", 2, &[6], short::needless_set),
    way("no set behind DIA or BOX", 1, &[6], short::missing_set),
    way("`.` or `;` in DIA or BOX", 2, &[6], short::no_set),
    way("`&` without a side", 2, &[6], short::missing_side),
    way("`&` in a set", 2, &[6], short::in_a_set),
    way("over 40 nodes", 5, &[8], over_forty_nodes),
    way("node without class", 6, &[9], without_class),
    way("deep", 4, &[0, 6, 8], |rng, _| deep_text(rng)),
    way("random bytes", 4, &[6], |rng, _| {
        let length = rng.below(40);
        random_bytes(rng, length)
    }),
    way("empty", 2, &[6], |_, _| Vec::new()),
    way("about 512 bytes or far more", 4, &[5, 6], |rng, _| extreme_text(rng)),
];

/// Texts that look names up, over names that nearly equal each other above all.
pub const LOOKUPS: [Way<Table, Vec<u8>>; 2] = [
    way("name near one of the table's", 2, &[7], |rng, table| {
        with_absent(rng, table, |rng, table| match rng.some(table.labels(), |_| true) {
            Some(label) => absent_near(rng, table, label),
            None => absent_name(rng),
        })
    }),
    way("each name alone", 1, &[0], each_name),
];

/// In one of these ways.
pub fn text(rng: &mut Rng, table: &Table) -> Vec<u8> {
    (pick(rng, &TEXTS).make)(rng, table)
}

fn some_tokens(rng: &mut Rng, table: &Table) -> Vec<Vec<u8>> {
    let nodes = match rng.below(40) {
        0 => MAX_NODES + 1,
        1 => rng.between(MAX_NODES - 1, MAX_NODES + 30),
        _ => node_count(rng),
    };
    let class = match rng.one_in(6) {
        true => None,
        false => Some(class(rng, nodes)),
    };
    let formula = formula(rng, class, nodes, table);
    tokens(rng, &formula, table)
}

fn faulty_tokens(rng: &mut Rng, table: &Table) -> Vec<Vec<u8>> {
    let mut tokens = some_tokens(rng, table);
    for _ in 0..rng.between(1, 3) {
        faulty_token(rng, &mut tokens);
    }
    tokens
}

pub fn lacking_name(rng: &mut Rng, table: &Table) -> Vec<u8> {
    with_absent(rng, table, |rng, _| absent_name(rng))
}

/// With a name that the table lacks.
fn with_absent(rng: &mut Rng, table: &Table, absent: fn(&mut Rng, &Table) -> Vec<u8>) -> Vec<u8> {
    let mut tokens = small_tokens(rng, table, 12);
    let names: Vec<usize> = (0..tokens.len()).filter(|&at| is_name(&tokens[at])).collect();
    let absent = absent(rng, table);
    match names.is_empty() {
        true => [b"EX[".as_slice(), &absent, b"]", &tokens.concat()].concat(),
        false => {
            tokens[rng.pick(&names)] = absent;
            tokens.concat()
        }
    }
}

fn absent_near(rng: &mut Rng, table: &Table, label: usize) -> Vec<u8> {
    loop {
        let absent = near(rng, &table.names[label]);
        if !table.names.contains(&absent) {
            return absent;
        }
    }
}

/// A node for each name, as far as the nodes and the bytes go.
fn each_name(rng: &mut Rng, table: &Table) -> Vec<u8> {
    let mut names = table.names.clone();
    rng.shuffle(&mut names);
    let mut text = Vec::new();
    for name in names.iter().take(MAX_NODES - 1) {
        let node = [b"EX[".as_slice(), name, b"]"].concat();
        if text.len() + node.len() < MAX_BYTES {
            text.extend_from_slice(&node);
        }
    }
    text.push(b'T');
    text
}

/// Negations, or whatever fits into the length.
pub fn over_forty_nodes(rng: &mut Rng, table: &Table) -> Vec<u8> {
    for _ in 0..rng.below(4) {
        let nodes = rng.between(MAX_NODES + 1, MAX_NODES + 30);
        let class = rng.pick(&[None, Some(Class::Witnesses)]);
        let formula = formula(rng, class, nodes, table);
        let text = tokens(rng, &formula, table).concat();
        if text.len() <= MAX_BYTES {
            return text;
        }
    }
    let most = rng.pick(&[MAX_NODES, MAX_NODES + 3, MAX_BYTES - 1]);
    let mut text = vec![b'~'; rng.between(MAX_NODES, most)];
    text.push(b'T');
    text
}

/// Of up to 40 nodes, in up to 512 bytes.
pub fn without_class(rng: &mut Rng, table: &Table) -> Vec<u8> {
    loop {
        let most = rng.pick(&[4, 12, MAX_NODES]);
        let nodes = rng.between(3, most);
        let formula = formula(rng, None, nodes, table);
        let text = tokens(rng, &formula, table).concat();
        if text.len() <= MAX_BYTES && formula.classes().contains(&None) {
            return text;
        }
    }
}

/// Tokens lost, repeated, exchanged, or replaced, by a name that no table has among others.
fn faulty_token(rng: &mut Rng, tokens: &mut Vec<Vec<u8>>) {
    const MARKS: [&[u8]; 21] = [
        b"T", b"~", b"|", b"&", b"EX", b"AX", b"EU", b"EF", b"AG", b"DIA", b"BOX", b"[", b"]",
        b"(", b")", b";", b".", b"*", b"?", b"!", b"E",
    ];
    let at = rng.below(tokens.len() + 1);
    let names: Vec<usize> = (0..tokens.len()).filter(|&at| is_name(&tokens[at])).collect();
    match rng.below(8) {
        0..3 if !names.is_empty() => tokens[rng.pick(&names)] = absent_name(rng),
        3 if at < tokens.len() => drop(tokens.remove(at)),
        4 => tokens.insert(at, rng.pick(&MARKS).to_vec()),
        5 if at < tokens.len() => tokens[at] = rng.pick(&MARKS).to_vec(),
        6 if at + 1 < tokens.len() => tokens.swap(at, at + 1),
        7 => tokens.insert(at, name(rng, MAX_STEM + 1)),
        _ => tokens.truncate(at),
    }
}

/// Brackets, negations and short forms as deep as the length allows, of terms or of operands.
fn deep_text(rng: &mut Rng) -> Vec<u8> {
    let depth = rng.pick(&[20, 39, 100, 250, 255, 256, 511]);
    let (before, inner, after) = match rng.below(4) {
        0 => ("EX[", rng.pick(&["*", "?", "!"]), "]T"),
        1 => ("EU[*;", rng.pick(&["*", "?", "!"]), "]T"),
        _ => ("", "T", ""),
    };
    let opening = match before {
        "" => rng.pick(&["(", "~", "(~", "~(", "AG", "EF", "DIA[*]", "BOX[*]", "AG(", "~T&("]),
        _ => rng.pick(&["(", "~", "(~", "~("]),
    };
    let closing = if opening.contains('(') { ")" } else { "" };
    let open = depth / opening.len();
    let close = open + rng.pick(&[0, 0, 0, 1]) - rng.pick(&[0, 0, 0, 1]);
    let parts = [before, &opening.repeat(open), inner, &closing.repeat(close), after];
    let mut text = parts.concat().into_bytes();
    if rng.one_in(4) {
        damage(rng, &mut text);
    }
    text
}

/// About as many bytes as a formula may have, or far more.
fn extreme_text(rng: &mut Rng) -> Vec<u8> {
    match rng.below(2) {
        0 if rng.one_in(100) => vec![b'T'; rng.pick(&[1 << 20, (1 << 24) + 1])],
        0 => vec![b'~'; rng.pick(&[MAX_BYTES, MAX_BYTES + 1, 65_535, 65_536, 100_000])],
        _ => {
            let length = rng.between(MAX_BYTES - 2, MAX_BYTES + 2);
            random_bytes(rng, length)
        }
    }
}
