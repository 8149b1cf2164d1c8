//! What happens to bytes: damage by bytes of the base notation or by any byte, and lengths.

use super::rng::Rng;

pub type Byte = fn(&Rng) -> u8;

/// A byte that some table or formula of the base may have.
pub fn base_byte(rng: &Rng) -> u8 {
    rng.pick(b"    \n\n0123456789abcz_AEEUTXX~~||(())[];.*")
}

pub fn any_byte(rng: &Rng) -> u8 {
    rng.below(256) as u8
}

pub fn bytes(rng: &Rng, length: usize, byte: Byte) -> Vec<u8> {
    (0..length).map(|_| byte(rng)).collect()
}

/// Once to three times: a byte changed, put in or taken out, a part repeated, bytes appended.
pub fn damaged(rng: &Rng, mut text: Vec<u8>, byte: Byte) -> Vec<u8> {
    for _ in 0..rng.between(1, 3) {
        let at = rng.below(text.len() + 1);
        match rng.below(6) {
            0 | 1 if at < text.len() => text[at] = byte(rng),
            2 if at < text.len() => drop(text.remove(at)),
            3 => {
                let part = text[at..text.len().min(at + rng.below(8))].to_vec();
                text.splice(at..at, part);
            }
            4 => text.extend(bytes(rng, rng.between(1, 8), byte)),
            _ => text.insert(at, byte(rng)),
        }
    }
    text
}

pub fn cut(rng: &Rng, mut text: Vec<u8>) -> Vec<u8> {
    text.truncate(rng.below(text.len().max(1)));
    text
}

/// Fewer bytes than these: one less, none, or some.
pub fn shorter(rng: &Rng, length: usize) -> usize {
    let some = rng.below(length);
    rng.pick(&[length - 1, 0, 1, some, some])
}

pub fn longer(rng: &Rng, length: usize) -> usize {
    length + rng.pick(&[1, 2, 7, 8, 64, 199])
}

/// Prepared bytes with fewer or more bytes lent.
pub fn resized(rng: &Rng, mut prepared: Vec<u8>, length: usize) -> Vec<u8> {
    let behind = bytes(rng, length.saturating_sub(prepared.len()), any_byte);
    prepared.truncate(length);
    prepared.extend(behind);
    prepared
}
