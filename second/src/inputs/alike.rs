//! Names that nearly equal each other: they differ in one byte, or one is the beginning of the other.

use super::rng::Rng;
use crate::table::{Direction, MARKS, MAX_STEM};

const LETTERS: &[u8] = b"abcdefghijklmnoprstuvwxyz";
const NAME_BYTES: &[u8] = b"abcdefghijklmnopqrstuvwxyz0123456789_";

/// So many, each near one before it. The first has any length, each alike often.
pub fn names(rng: &mut Rng, count: usize) -> Vec<Vec<u8>> {
    let mut names: Vec<Vec<u8>> = Vec::with_capacity(count);
    while names.len() < count {
        let name = match rng.some(names.len(), |_| true) {
            Some(at) => near(rng, &names[at]),
            None => of_any_length(rng),
        };
        if !names.contains(&name) {
            names.push(name);
        }
    }
    names
}

/// Of 1 to 13 bytes, with a mark or without.
fn of_any_length(rng: &mut Rng) -> Vec<u8> {
    let length = rng.between(1, MAX_STEM + 1);
    let is_marked = length > MAX_STEM || length > 1 && rng.one_in(3);
    let mut name = vec![rng.pick(LETTERS)];
    name.extend((1..length).map(|_| rng.pick(NAME_BYTES)));
    if is_marked {
        name[length - 1] = rng.pick(&MARKS);
    }
    name
}

/// Mostly one byte is another; else it is a beginning of this name, or this one is its beginning.
pub fn near(rng: &mut Rng, name: &[u8]) -> Vec<u8> {
    let can_go_on = Direction::of(name) == Direction::None;
    match rng.below(8) {
        0 if name.len() > 1 => name[..rng.between(1, name.len() - 1)].to_vec(),
        1 if can_go_on => longer(rng, name),
        _ => with_another_byte(rng, name),
    }
}

fn longer(rng: &mut Rng, stem: &[u8]) -> Vec<u8> {
    let more = rng.below(MAX_STEM - stem.len() + 1);
    let mut name = stem.to_vec();
    name.extend((0..more).map(|_| rng.pick(NAME_BYTES)));
    if more == 0 || rng.one_in(3) {
        name.push(rng.pick(&MARKS));
    }
    name
}

/// A name of the same length: the thirteenth byte is a mark, and no other name begins with `q`.
fn with_another_byte(rng: &mut Rng, name: &[u8]) -> Vec<u8> {
    let at = rng.below(name.len());
    let is_last = at > 0 && at + 1 == name.len();
    let other = loop {
        let other = match at {
            0 => rng.pick(LETTERS),
            MAX_STEM => rng.pick(&MARKS),
            _ if is_last && rng.one_in(4) => rng.pick(&MARKS),
            _ => rng.pick(NAME_BYTES),
        };
        if other != name[at] {
            break other;
        }
    };
    let mut name = name.to_vec();
    name[at] = other;
    name
}

#[cfg(test)]
mod tests {
    use super::*;
    use crate::table::is_name;

    #[test]
    fn a_near_name_is_another_name_that_differs_in_a_byte_or_begins_alike() {
        let rng = &mut Rng::new(1);
        for _ in 0..20_000 {
            let name = of_any_length(rng);
            let near = near(rng, &name);
            assert!(is_name(&name) && is_name(&near) && name != near);
            let differing = name.iter().zip(&near).filter(|(left, right)| left != right).count();
            assert_eq!(differing, usize::from(name.len() == near.len()));
        }
    }

    #[test]
    fn forty_names_can_be_near_each_other() {
        let rng = &mut Rng::new(1);
        assert!((0..1_000).all(|_| names(rng, 40).len() == 40));
    }
}
