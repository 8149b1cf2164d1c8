//! What may have happened to a text file.

use super::bytes::{TELLING, random_bytes};
use super::rng::Rng;

pub type Edit = fn(&mut Rng, &mut Vec<u8>);

/// Some byte is another now.
pub fn change(rng: &mut Rng, text: &mut Vec<u8>) {
    let at = rng.below(text.len());
    let telling = rng.pick(TELLING);
    let other = match text[at] == telling || rng.one_in(3) {
        true => text[at] ^ (1 << rng.below(8)),
        false => telling,
    };
    text.splice(at..=at, [other]);
}

pub fn insert(rng: &mut Rng, text: &mut Vec<u8>) {
    text.insert(rng.below(text.len() + 1), rng.pick(TELLING));
}

pub fn remove(rng: &mut Rng, text: &mut Vec<u8>) {
    text.remove(rng.below(text.len()));
}

pub fn cut(rng: &mut Rng, text: &mut Vec<u8>) {
    text.truncate(rng.below(text.len()));
}

pub fn double_line(rng: &mut Rng, text: &mut Vec<u8>) {
    let lines: Vec<&[u8]> = text.split_inclusive(|&byte| byte == b'\n').collect();
    let doubled = rng.below(lines.len());
    *text = [&lines[..=doubled], &lines[doubled..]].concat().concat();
}

pub fn append(rng: &mut Rng, text: &mut Vec<u8>) {
    let length = rng.between(1, 8);
    match rng.below(4) {
        0 => text.push(b'\n'),
        1 => text.push(b' '),
        2 => text.extend_from_slice(b"     0     0     0\n"),
        _ => text.extend(random_bytes(rng, length)),
    }
}

pub fn without_end(_: &mut Rng, text: &mut Vec<u8>) {
    if text.last() == Some(&b'\n') {
        text.pop();
    }
}

/// CR before the LF of one line or of each, at the end even where no LF stands.
pub fn carriage_return(rng: &mut Rng, text: &mut Vec<u8>) {
    without_end(rng, text);
    text.push(b'\n');
    let ends: Vec<usize> = (0..text.len()).filter(|&at| text[at] == b'\n').collect();
    let each = rng.one_in(2);
    let one = rng.pick(&ends);
    for at in ends.into_iter().rev().filter(|&at| each || at == one) {
        text.insert(at, b'\r');
    }
}

pub fn end_or_not(rng: &mut Rng, text: &mut Vec<u8>) {
    if rng.one_in(2) {
        text.push(b'\n');
    }
}
