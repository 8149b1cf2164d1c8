//! Random words of every length, with idle steps at every place: along a listing, near it, and such
//! as 13 refuses.

use std::ops::RangeInclusive;

use super::kinds::Kinds;
use super::rng::Rng;
use crate::listing::{Edge, Listing, Row};
use crate::table::{IDLE, SILENT, is_silent};
use crate::tally::{Expected, Kind, Outcome};
use crate::word::MAX_WORD;

const PART: &str = "word";
/// A word of fewer labels is short.
pub const LONG: usize = 12;

struct Lengths {
    name: &'static str,
    lengths: RangeInclusive<usize>,
    outcomes: &'static [Outcome],
}

const fn lengths(
    name: &'static str,
    lengths: RangeInclusive<usize>,
    outcomes: &'static [Outcome],
) -> Lengths {
    Lengths { name, lengths, outcomes }
}

const ANSWERED: &[Outcome] = &[Outcome::NO, Outcome::YES];
const ANY: &[Outcome] = &[Outcome::NO, Outcome::YES, Outcome::of(13)];
const REFUSED: &[Outcome] = &[Outcome::of(13)];

const LENGTHS: [Lengths; 12] = [
    lengths("no label", 0..=0, ANSWERED),
    lengths("1 to 11 labels", 1..=LONG - 1, ANY),
    lengths("12 to 126 labels", LONG..=126, ANY),
    lengths("127 to 129 labels", 127..=129, ANSWERED),
    lengths("130 to 254 labels", 130..=254, ANY),
    lengths("255 to 257 labels", 255..=257, ANSWERED),
    lengths("258 to 510 labels", 258..=510, ANY),
    lengths("511 to 513 labels", 511..=513, ANSWERED),
    lengths("514 to 1,022 labels", 514..=MAX_WORD - 2, ANY),
    lengths("1,023 or 1,024 labels", MAX_WORD - 1..=MAX_WORD, ANY),
    lengths("1,025 labels", MAX_WORD + 1..=MAX_WORD + 1, REFUSED),
    lengths("over 1,025 labels", MAX_WORD + 2..=usize::MAX, REFUSED),
];

struct Letters {
    name: &'static str,
    /// Whether a word over so many labels has them.
    are_in: fn(&[u8], u8) -> bool,
    outcomes: &'static [Outcome],
}

const fn letters(
    name: &'static str,
    outcomes: &'static [Outcome],
    are_in: fn(&[u8], u8) -> bool,
) -> Letters {
    Letters { name, are_in, outcomes }
}

const LETTERS: &str = "letters";
const NOT_ACCEPTED: &[Outcome] = &[Outcome::NO, Outcome::of(13)];

/// Behind an idle step only idle steps follow.
const LETTERS_OF: [Letters; 10] = [
    letters("an idle step alone", ANSWERED, |word, _| word == [IDLE]),
    letters("idle steps alone", ANY, |word, _| word.len() > 1 && has_only_idle_steps(word)),
    letters("an idle step first, then others", NOT_ACCEPTED, |word, _| {
        word.first() == Some(&IDLE) && !has_only_idle_steps(word)
    }),
    letters("an idle step behind others", ANY, |word, _| is_begun(word) && word.ends_with(&[IDLE])),
    letters("an idle step within", ANY, |word, _| {
        is_begun(word) && word[..word.len() - 1].contains(&IDLE)
    }),
    letters("one above the label count", REFUSED, |word, labels| word.contains(&(labels + 1))),
    letters("41", REFUSED, |word, _| word.contains(&41)),
    letters("one below the idle step's", REFUSED, |word, _| word.contains(&(IDLE - 1))),
    letters("one above the idle step's", REFUSED, |word, _| word.contains(&(IDLE + 1))),
    letters("255", REFUSED, |word, _| word.contains(&255)),
];

fn has_only_idle_steps(word: &[u8]) -> bool {
    word.iter().all(|&letter| letter == IDLE)
}

fn is_begun(word: &[u8]) -> bool {
    word.first().is_some_and(|&letter| letter != IDLE)
}

/// Mostly short; otherwise any, near a power of two, or at the limit.
pub fn length(rng: &mut Rng) -> usize {
    match rng.below(32) {
        0..20 => rng.below(LONG),
        20..24 => rng.between(LONG, MAX_WORD),
        24 | 25 => rng.between(LONG, 254),
        26..29 => rng.pick(&[128, 256, 512]) + rng.below(3) - 1,
        29 | 30 => rng.between(MAX_WORD - 1, MAX_WORD),
        _ => MAX_WORD + rng.below(3),
    }
}

/// About so many labels.
pub fn word(
    rng: &mut Rng,
    kinds: &mut Kinds,
    listing: &Listing,
    labels: usize,
    length: usize,
) -> Vec<u8> {
    let mut word = match rng.below(5) {
        0 => (0..length).map(|_| letter(rng, labels)).collect(),
        _ => along(rng, listing, length),
    };
    if rng.one_in(5) && !word.is_empty() {
        let at = telling_index(rng, word.len());
        word[at] = letter(rng, labels);
    }
    if rng.one_in(6) {
        exchange_silent(rng, &mut word);
    }
    if rng.one_in(6) {
        word = refused(rng, word, labels);
    }
    let kind = LENGTHS.iter().find(|kind| kind.lengths.contains(&word.len()));
    kinds.note(PART, kind.expect("every length has a kind").name);
    for kind in LETTERS_OF.iter().filter(|kind| (kind.are_in)(&word, labels as u8)) {
        kinds.note(LETTERS, kind.name);
    }
    word
}

/// All lengths and letters that must have occurred.
pub fn expected() -> Vec<Expected> {
    let lengths = LENGTHS.iter().map(|kind| (PART, kind.name, kind.outcomes));
    let letters = LETTERS_OF.iter().map(|kind| (LETTERS, kind.name, kind.outcomes));
    let expected = |(part, name, outcomes): (_, _, &[Outcome])| Expected {
        kind: Kind { part, name },
        outcomes: outcomes.to_vec(),
    };
    lengths.chain(letters).map(expected).collect()
}

/// One that 13 does not refuse.
fn letter(rng: &mut Rng, labels: usize) -> u8 {
    match rng.one_in(6) {
        true => IDLE,
        false => rng.below(labels + 1) as u8,
    }
}

/// A silent step that is written where the idle one stands, or the other way round.
fn exchange_silent(rng: &mut Rng, word: &mut [u8]) {
    let silent: Vec<usize> = (0..word.len()).filter(|&at| is_silent(word[at])).collect();
    if let (Some(&first), Some(&last)) = (silent.first(), silent.last()) {
        let any = rng.pick(&silent);
        let at = rng.pick(&[first, last, any]);
        word[at] = if word[at] == IDLE { SILENT } else { IDLE };
    }
}

/// The labels along so many edges from row 0, or fewer where none leads on. Most ends are final.
fn along(rng: &mut Rng, listing: &Listing, length: usize) -> Vec<u8> {
    let to_final = match rng.one_in(4) {
        true => vec![0; listing.rows.len()],
        false => edges_to_final(listing),
    };
    let mut word = Vec::new();
    let mut row = 0;
    while word.len() < length {
        let left = length - word.len() - 1;
        let Some(edge) = an_edge(rng, listing, row, &to_final, left) else {
            break;
        };
        word.push(edge.label);
        row = edge.target;
    }
    word
}

/// One after which so many edges can lead to a final row, if a few draws find it, or else one on a
/// shortest way there.
fn an_edge(
    rng: &mut Rng,
    listing: &Listing,
    row: u16,
    to_final: &[usize],
    left: usize,
) -> Option<Edge> {
    let edges = listing.edges_from(row);
    let leads_on = |edge: &Edge| left == 0 || !listing.edges_from(edge.target).is_empty();
    for _ in 0..if edges.is_empty() { 0 } else { 4 } {
        let edge = rng.pick(edges);
        if to_final[edge.target as usize] <= left && leads_on(&edge) {
            return Some(edge);
        }
    }
    edges.iter().min_by_key(|edge| to_final[edge.target as usize]).copied()
}

/// By row: the fewest edges that lead to a final row. Only from a bare root none do.
fn edges_to_final(listing: &Listing) -> Vec<usize> {
    let at_end = |row: &Row| if row.is_final { 0 } else { usize::MAX };
    let mut least: Vec<usize> = listing.rows.iter().map(at_end).collect();
    let mut changed = true;
    while changed {
        changed = false;
        for edge in listing.edges.iter().rev() {
            let through = least[edge.target as usize].saturating_add(1);
            if through < least[edge.row as usize] {
                least[edge.row as usize] = through;
                changed = true;
            }
        }
    }
    least
}

/// The first, the last, about the limit, or any.
fn telling_index(rng: &mut Rng, length: usize) -> usize {
    let any = rng.below(length);
    rng.pick(&[0, length - 1, MAX_WORD - 1, MAX_WORD, any, any]).min(length - 1)
}

fn refused(rng: &mut Rng, mut word: Vec<u8>, labels: usize) -> Vec<u8> {
    match rng.below(6) {
        0 => {
            let length = rng.pick(&[MAX_WORD, MAX_WORD + 1, MAX_WORD + 2, 5_000, 70_000]);
            word.resize(length, rng.pick(&[SILENT, IDLE]));
        }
        1 => word.push(rng.pick(&[SILENT, IDLE])),
        _ => {}
    }
    for _ in 0..rng.pick(&[0, 1, 1, 2]) {
        if !word.is_empty() {
            let at = telling_index(rng, word.len());
            let (most, above) = (labels as u8, labels as u8 + 1);
            word[at] = rng.pick(&[most, above, above, 41, 64, IDLE - 1, IDLE + 1, 255]);
        }
    }
    word
}
