//! Random bytes, and what may happen to bytes.

use super::rng::Rng;

/// Bytes that mean something in a table or a formula, and some that never do.
pub const TELLING: &[u8] = b" \n0123456789abz_?!ABDEFGIOTUX~|&()[];.*\r\t\0-+/:@`{\x7f\x80\xb1\xff";

pub fn random_bytes(rng: &mut Rng, length: usize) -> Vec<u8> {
    let telling = rng.one_in(2);
    let byte = |_| match telling {
        true => rng.pick(TELLING),
        false => rng.below(256) as u8,
    };
    (0..length).map(byte).collect()
}

/// One byte changed, inserted or deleted, a part repeated, the end cut off or bytes appended.
pub fn damage(rng: &mut Rng, bytes: &mut Vec<u8>) {
    let at = rng.below(bytes.len() + 1);
    match rng.below(7) {
        0 | 1 if at < bytes.len() => bytes[at] = rng.pick(TELLING),
        2 => bytes.insert(at, rng.pick(TELLING)),
        3 if at < bytes.len() => drop(bytes.remove(at)),
        4 => {
            let end = (at + rng.below(8)).min(bytes.len());
            let part = bytes[at..end].to_vec();
            bytes.splice(at..at, part);
        }
        5 => bytes.truncate(at),
        _ => {
            let length = rng.between(1, 8);
            let more = random_bytes(rng, length);
            bytes.extend_from_slice(&more);
        }
    }
}

/// The first or the last byte changed, lost or doubled.
pub fn damage_an_end(rng: &mut Rng, bytes: &mut Vec<u8>) {
    let at = rng.pick(&[0, bytes.len() - 1]);
    match rng.below(4) {
        0 => drop(bytes.remove(at)),
        1 => bytes.insert(at, bytes[at]),
        _ => bytes[at] = another_byte(rng, bytes[at]),
    }
}

/// One bit off, one more or less, the least, the greatest, or any.
pub fn another_byte(rng: &mut Rng, byte: u8) -> u8 {
    loop {
        let other = match rng.below(6) {
            0 | 1 => byte ^ 1 << rng.below(8),
            2 => byte.wrapping_add(rng.pick(&[1, u8::MAX])),
            3 => rng.pick(&[0, 1, u8::MAX]),
            4 => rng.pick(TELLING),
            _ => rng.below(256) as u8,
        };
        if other != byte {
            return other;
        }
    }
}
