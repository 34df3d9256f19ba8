//! A small seeded generator of numbers (splitmix64), the same on every machine.

/// A stream of numbers that depends on its seed alone.
#[derive(Clone, Debug)]
pub struct Random {
    state: u64,
}

impl Random {
    pub fn new(seed: u64) -> Self {
        Random { state: seed }
    }

    pub fn next_u64(&mut self) -> u64 {
        self.state = self.state.wrapping_add(0x9E37_79B9_7F4A_7C15);
        let mut mixed = self.state;
        mixed = (mixed ^ (mixed >> 30)).wrapping_mul(0xBF58_476D_1CE4_E5B9);
        mixed = (mixed ^ (mixed >> 27)).wrapping_mul(0x94D0_49BB_1331_11EB);
        mixed ^ (mixed >> 31)
    }

    pub fn byte(&mut self) -> u8 {
        self.next_u64() as u8
    }

    pub fn word(&mut self) -> u16 {
        self.next_u64() as u16
    }

    pub fn dword(&mut self) -> u32 {
        self.next_u64() as u32
    }

    /// A number under `limit`; 0 where the limit is 0.
    pub fn below(&mut self, limit: usize) -> usize {
        ((u128::from(self.next_u64()) * limit as u128) >> 64) as usize
    }

    /// A number from `low` to `high`, both included.
    pub fn between(&mut self, low: usize, high: usize) -> usize {
        low + self.below(high - low + 1)
    }

    /// True in `percent` of a hundred cases.
    pub fn chance(&mut self, percent: usize) -> bool {
        self.below(100) < percent
    }

    /// True in one of `n` cases.
    pub fn one_in(&mut self, n: usize) -> bool {
        self.below(n) == 0
    }

    /// One of the items, which must not be empty.
    pub fn pick<T: Copy>(&mut self, items: &[T]) -> T {
        items[self.below(items.len())]
    }

    /// A word that is often an edge: 0, 1, 2, the greatest, a power of two ± 1.
    pub fn edge_u16(&mut self) -> u16 {
        self.edge(16) as u16
    }

    /// A double word that is often an edge.
    pub fn edge_u32(&mut self) -> u32 {
        self.edge(32)
    }

    fn edge(&mut self, bits: usize) -> u32 {
        let greatest = u32::MAX >> (32 - bits);
        let value = match self.below(10) {
            0 => 0,
            1 => 1,
            2 => 2,
            3 => greatest,
            4 => greatest - 1,
            5 | 6 => {
                let power = 1u32 << self.below(bits);
                power.wrapping_add(self.below(3) as u32).wrapping_sub(1)
            }
            _ => self.dword(),
        };
        value & greatest
    }

    pub fn fill(&mut self, bytes: &mut [u8]) {
        for chunk in bytes.chunks_mut(8) {
            let drawn = self.next_u64().to_le_bytes();
            chunk.copy_from_slice(&drawn[..chunk.len()]);
        }
    }

    pub fn shuffle<T>(&mut self, items: &mut [T]) {
        for last in (1..items.len()).rev() {
            items.swap(last, self.below(last + 1));
        }
    }
}
