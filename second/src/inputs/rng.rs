//! A small generator of random numbers (splitmix64).

pub struct Rng {
    state: u64,
}

impl Rng {
    pub fn new(seed: u64) -> Rng {
        Rng { state: seed }
    }

    /// A generator of its own for each input of each kind, so that it can be made again alone.
    pub fn of_input(seed: u64, kind: &str, index: u64) -> Rng {
        let mixed = |number: u64, more: u64| Rng::new(number ^ more.rotate_left(32)).draw();
        let kind = kind.bytes().fold(0, |kind, byte| mixed(kind, byte.into()));
        Rng::new(mixed(mixed(seed, kind), index))
    }

    /// Another one, by this one's state and a part's name. What is drawn of it changes nothing of what is
    /// drawn of this one, so that the rest of an input stays what it is without that part.
    pub fn aside(&self, part: &str) -> Rng {
        Rng::of_input(self.state, part, 0)
    }

    pub fn draw(&mut self) -> u64 {
        self.state = self.state.wrapping_add(0x9e37_79b9_7f4a_7c15);
        let mut mixed = self.state;
        mixed = (mixed ^ mixed >> 30).wrapping_mul(0xbf58_476d_1ce4_e5b9);
        mixed = (mixed ^ mixed >> 27).wrapping_mul(0x94d0_49bb_1331_11eb);
        mixed ^ mixed >> 31
    }

    pub fn below(&mut self, bound: usize) -> usize {
        ((u128::from(self.draw()) * bound as u128) >> 64) as usize
    }

    pub fn between(&mut self, least: usize, most: usize) -> usize {
        least + self.below(most - least + 1)
    }

    pub fn one_in(&mut self, bound: usize) -> bool {
        self.below(bound) == 0
    }

    pub fn pick<Item: Copy>(&mut self, items: &[Item]) -> Item {
        items[self.below(items.len())]
    }

    /// One of so many for which this is so, if there is any.
    pub fn some(&mut self, count: usize, is_fit: impl Fn(usize) -> bool) -> Option<usize> {
        let fit: Vec<usize> = (0..count).filter(|&at| is_fit(at)).collect();
        (!fit.is_empty()).then(|| self.pick(&fit))
    }

    pub fn shuffle<Item>(&mut self, items: &mut [Item]) {
        for last in (1..items.len()).rev() {
            items.swap(last, self.below(last + 1));
        }
    }
}

/// So many bytes of a lent buffer are drawn.
const DRAWN: usize = 1 << 14;

/// The bytes that stand in a lent buffer, by a number. In a long one they come again.
pub fn filled(fill: u64, length: usize) -> Vec<u8> {
    let mut rng = Rng::new(fill);
    let mut bytes = Vec::with_capacity(length + 8);
    while bytes.len() < length.min(DRAWN) {
        bytes.extend_from_slice(&rng.draw().to_le_bytes());
    }
    while bytes.len() < length {
        bytes.extend_from_within(..bytes.len().min(length - bytes.len()));
    }
    bytes.truncate(length);
    bytes
}
