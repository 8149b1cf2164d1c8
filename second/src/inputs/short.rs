//! Lines with short forms, and what may be wrong about them: at each border of a keyword, a set or
//! `&`, at the limits of nodes and bytes, in a class or in a name.

use super::formulas::{self, absent_name, is_name, spaced, with_blanks};
use super::rng::Rng;
use crate::formula::{Class, MAX_BYTES, MAX_NODES};
use crate::table::Table;

type Tokens = Vec<Vec<u8>>;

/// A line with a class that has some short form.
pub fn line(rng: &mut Rng, table: &Table) -> Vec<u8> {
    let tokens = tokens(rng, table);
    spaced(rng, &tokens)
}

/// Of a line with a class, mostly of a few nodes, that has some short form.
pub fn tokens(rng: &mut Rng, table: &Table) -> Tokens {
    loop {
        let nodes = rng.between(2, 24);
        let tokens = with_class(rng, table, nodes);
        if tokens.iter().any(|token| is_short(token)) {
            return tokens;
        }
    }
}

/// Of a line with a class and exactly so many nodes.
fn with_class(rng: &mut Rng, table: &Table, nodes: usize) -> Tokens {
    let class = rng.pick(&[Class::Witnesses, Class::Counterexamples]);
    let formula = formulas::of_short_forms(rng, Some(class), nodes, table);
    formulas::short_tokens(rng, &formula, table)
}

fn length(tokens: &Tokens) -> usize {
    tokens.iter().map(Vec::len).sum()
}

fn is_short(token: &[u8]) -> bool {
    is_keyword(token) || token == b"&"
}

fn is_keyword(token: &[u8]) -> bool {
    is_alone(token) || is_with_set(token)
}

/// No set follows.
fn is_alone(token: &[u8]) -> bool {
    matches!(token, b"EF" | b"AG")
}

fn is_with_set(token: &[u8]) -> bool {
    matches!(token, b"DIA" | b"BOX")
}

/// In 512 bytes.
pub fn about_forty_nodes(rng: &mut Rng, table: &Table) -> Vec<u8> {
    loop {
        let nodes = rng.between(MAX_NODES - 1, MAX_NODES + 1);
        let tokens = with_class(rng, table, nodes);
        if length(&tokens) <= MAX_BYTES {
            return tokens.concat();
        }
    }
}

/// Blanks stand between the tokens of a line of any number of nodes up to 40, 40 among them.
pub fn about_512_bytes(rng: &mut Rng, table: &Table) -> Vec<u8> {
    let bytes = rng.between(MAX_BYTES - 1, MAX_BYTES + 1);
    loop {
        let least = rng.pick(&[2, MAX_NODES]);
        let nodes = rng.between(least, MAX_NODES);
        let tokens = with_class(rng, table, nodes);
        if tokens.len() > 1 && length(&tokens) <= bytes {
            return with_blanks(rng, &tokens, bytes - length(&tokens));
        }
    }
}

/// Up to 512 bytes, most of which are `T` and `&`.
pub fn most_nodes(rng: &mut Rng) -> Vec<u8> {
    let unit: &[u8] =
        rng.pick(&[b"T&", b"T&", b"~T&", b"AGT&", b"(T&T)&", b"EFT&T|", b"AG", b"T & "]);
    let longest = rng.pick(&[MAX_BYTES, MAX_BYTES, 200, 60]);
    let mut line = unit.repeat((longest - 2) / unit.len());
    line.push(b'T');
    if rng.one_in(2) {
        line.insert(0, b'~');
    }
    line
}

/// Some short form has no class, as in `T & T`, `AG T` and `AG EF T`.
pub fn without_class(rng: &mut Rng, table: &Table) -> Vec<u8> {
    loop {
        let most = rng.pick(&[6, 12, MAX_NODES]);
        let nodes = rng.between(4, most);
        let formula = formulas::of_short_forms(rng, None, nodes, table);
        let tokens = formulas::short_tokens(rng, &formula, table);
        let is_short = tokens.iter().any(|token| is_short(token));
        if is_short && length(&tokens) <= MAX_BYTES && formula.classes().contains(&None) {
            return tokens.concat();
        }
    }
}

/// Terms of either class without brackets around those that `&` joins, in up to 40 nodes.
pub fn beside_or(rng: &mut Rng, table: &Table) -> Vec<u8> {
    let mut joints = rng.pick(&[*b"&|", *b"|&"]).to_vec();
    joints.extend((0..rng.below(3)).map(|_| rng.pick(b"&|")));
    let mut tokens = term(rng, table);
    for joint in joints {
        tokens.push(vec![joint]);
        tokens.extend(term(rng, table));
    }
    tokens.concat()
}

/// Of few nodes, in brackets if it needs them.
fn term(rng: &mut Rng, table: &Table) -> Tokens {
    let class = rng.pick(&[Class::Witnesses, Class::Counterexamples]);
    let nodes = rng.between(2, 4);
    if rng.one_in(3) {
        return vec![b"T".to_vec()];
    }
    let formula = formulas::of_short_forms(rng, Some(class), nodes, table);
    let tokens = formulas::short_tokens(rng, &formula, table);
    match tokens.iter().any(|token| token == b"|") {
        true => [vec![b"(".to_vec()], tokens, vec![b")".to_vec()]].concat(),
        false => tokens,
    }
}

/// Its offset in the line is another than in what is written out.
pub fn lacking_name(rng: &mut Rng, table: &Table) -> Vec<u8> {
    let mut tokens = tokens(rng, table);
    let first = tokens.iter().position(|token| is_short(token)).expect("a short form");
    match rng.some(tokens.len(), |at| at > first && is_name(&tokens[at])) {
        Some(at) => tokens[at] = absent_name(rng),
        None => {
            let head: [&[u8]; 5] = [b"AG", b"BOX", b"[", b"", b"]"];
            let mut head = head.map(<[u8]>::to_vec);
            head[3] = absent_name(rng);
            tokens.splice(0..0, head);
        }
    }
    tokens.concat()
}

/// A line that is damaged at some token that fits.
fn damaged(
    rng: &mut Rng,
    table: &Table,
    is_fit: fn(&[u8]) -> bool,
    damage: impl Fn(&mut Rng, &mut Tokens, usize),
) -> Vec<u8> {
    loop {
        let mut tokens = tokens(rng, table);
        if let Some(at) = rng.some(tokens.len(), |at| is_fit(&tokens[at])) {
            damage(rng, &mut tokens, at);
            return spaced(rng, &tokens);
        }
    }
}

/// Behind a keyword, behind its `[` or behind `&`; blanks may follow.
pub fn cut_off(rng: &mut Rng, table: &Table) -> Vec<u8> {
    damaged(rng, table, is_short, |rng, tokens, at| {
        let bracket = usize::from(is_with_set(&tokens[at]) && rng.one_in(2));
        tokens.truncate(at + 1 + bracket);
        let blanks = rng.pick(&[0, 0, 1, 3]);
        tokens.push(vec![b' '; blanks]);
    })
}

/// `DI` or `BO` among others, before what followed or at the end.
pub fn keyword_in_part(rng: &mut Rng, table: &Table) -> Vec<u8> {
    damaged(rng, table, is_keyword, |rng, tokens, at| {
        let left = rng.between(1, tokens[at].len() - 1);
        tokens[at].truncate(left);
        if rng.one_in(2) {
            tokens.truncate(at + 1);
        }
    })
}

pub fn keyword_with_blank(rng: &mut Rng, table: &Table) -> Vec<u8> {
    damaged(rng, table, is_keyword, |rng, tokens, at| {
        let before = rng.between(1, tokens[at].len() - 1);
        tokens[at].insert(before, b' ');
    })
}

pub fn other_keyword(rng: &mut Rng, table: &Table) -> Vec<u8> {
    const OTHERS: [&[u8]; 12] =
        [b"EG", b"AF", b"AU", b"FE", b"GA", b"DIAX", b"DIX", b"BOXX", b"BX", b"ef", b"dia", b"&&"];
    damaged(rng, table, is_keyword, |rng, tokens, at| tokens[at] = rng.pick(&OTHERS).to_vec())
}

/// `EF[a] T`.
pub fn needless_set(rng: &mut Rng, table: &Table) -> Vec<u8> {
    damaged(rng, table, is_alone, |rng, tokens, at| {
        let operand: &[u8] = rng.pick(&[b"*", b"?", b"a", b"."]);
        tokens.splice(at + 1..at + 1, [b"[", operand, b"]"].map(<[u8]>::to_vec));
    })
}

/// `DIA T`.
pub fn missing_set(rng: &mut Rng, table: &Table) -> Vec<u8> {
    damaged(rng, table, is_with_set, |_, tokens, at| {
        let end = behind_set(tokens, at);
        tokens.drain(at + 1..end);
    })
}

/// `DIA[.] T` or `BOX[a;b] T`.
pub fn no_set(rng: &mut Rng, table: &Table) -> Vec<u8> {
    damaged(rng, table, is_with_set, |rng, tokens, at| {
        let end = behind_set(tokens, at) - 1;
        match rng.below(3) {
            0 => drop(tokens.splice(at + 2..end, [b".".to_vec()])),
            1 => drop(tokens.splice(end..end, [b"|".to_vec(), b".".to_vec()])),
            _ => drop(tokens.splice(end..end, [b";".to_vec(), b"*".to_vec()])),
        }
    })
}

/// Where the tokens of the set behind this keyword end, with its brackets.
fn behind_set(tokens: &Tokens, keyword: usize) -> usize {
    let set = tokens[keyword..].iter().position(|token| token == b"]");
    keyword + set.expect("the set of a keyword") + 1
}

/// `&T`, `T&`, `T&&T`, `T|&T` and `(T&)` among others.
pub fn missing_side(rng: &mut Rng, table: &Table) -> Vec<u8> {
    let mut tokens = tokens(rng, table);
    let opens = |token: &[u8]| matches!(token, b"(" | b"|" | b"&" | b"~" | b"EF" | b"AG");
    let closes = |token: &[u8]| matches!(token, b")" | b"|" | b"&");
    let lacks_side =
        |at: usize| at == 0 || at == tokens.len() || opens(&tokens[at - 1]) || closes(&tokens[at]);
    let at = rng.some(tokens.len() + 1, lacks_side).expect("the ends of the line");
    tokens.insert(at, b"&".to_vec());
    spaced(rng, &tokens)
}

/// `EX[a&b] T`.
pub fn in_a_set(rng: &mut Rng, table: &Table) -> Vec<u8> {
    damaged(
        rng,
        table,
        |token| token == b"[",
        |rng, tokens, at| {
            let end = behind_set(tokens, at) - 1;
            let joint = rng.some(end, |joint| joint > at && tokens[joint] == b"|");
            match joint.filter(|_| rng.one_in(2)) {
                Some(joint) => tokens[joint] = b"&".to_vec(),
                None => drop(tokens.splice(end..end, [b"&".to_vec(), b"*".to_vec()])),
            }
        },
    )
}
