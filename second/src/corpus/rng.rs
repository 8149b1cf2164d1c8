//! The corpus's own random numbers (splitmix64), one generator for each input of each kind.

use std::cell::Cell;

pub struct Rng(Cell<u64>);

impl Rng {
    /// The generator of one input: by its entry, its kind and its index (FNV-1a of all three).
    pub fn of(entry: &str, kind: &str, index: u64) -> Rng {
        let index = index.to_le_bytes();
        let named = [entry.as_bytes(), b"/", kind.as_bytes(), b"/", &index].concat();
        let mixed = |hash: u64, &byte: &u8| (hash ^ u64::from(byte)).wrapping_mul(0x0100_0000_01b3);
        Rng(Cell::new(named.iter().fold(0xcbf2_9ce4_8422_2325, mixed)))
    }

    pub fn draw(&self) -> u64 {
        self.0.set(self.0.get().wrapping_add(0x9e37_79b9_7f4a_7c15));
        let mut mixed = self.0.get();
        mixed = (mixed ^ mixed >> 30).wrapping_mul(0xbf58_476d_1ce4_e5b9);
        mixed = (mixed ^ mixed >> 27).wrapping_mul(0x94d0_49bb_1331_11eb);
        mixed ^ mixed >> 31
    }

    pub fn below(&self, bound: usize) -> usize {
        ((u128::from(self.draw()) * bound as u128) >> 64) as usize
    }

    pub fn between(&self, least: usize, most: usize) -> usize {
        least + self.below(most - least + 1)
    }

    pub fn one_in(&self, bound: usize) -> bool {
        self.below(bound) == 0
    }

    pub fn pick<Item: Copy>(&self, items: &[Item]) -> Item {
        items[self.below(items.len())]
    }
}

/// So many bytes, by a number.
pub fn filled(fill: u64, length: usize) -> Vec<u8> {
    let rng = Rng(Cell::new(fill));
    let mut bytes = Vec::with_capacity(length + 8);
    while bytes.len() < length {
        bytes.extend_from_slice(&rng.draw().to_le_bytes());
    }
    bytes.truncate(length);
    bytes
}

#[cfg(test)]
mod tests {
    use super::*;

    #[test]
    fn a_buffer_is_filled_with_the_numbers_of_splitmix64() {
        let known = [0xe220_a839_7b1d_cdaf_u64, 0x6e78_9e6a_a1b9_65f4].map(u64::to_le_bytes);
        assert_eq!(filled(0, 13), known.concat()[..13]);
    }
}
