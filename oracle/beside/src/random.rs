//! Seeded numbers, so that every run can be repeated.

pub struct Random(u64);

/// The numbers around which widths, rates and products turn over.
const EDGES: [u64; 12] = [
    0,
    1,
    100,
    999_999,
    1_000_000,
    1 << 31,
    1 << 32,
    1 << 62,
    1 << 63,
    u64::MAX - 1_000_000,
    u64::MAX - 2,
    u64::MAX,
];

impl Random {
    pub fn new(seed: u64) -> Random {
        Random(seed)
    }

    /// Any 64 bits, all alike (the generator known as splitmix64).
    pub fn word(&mut self) -> u64 {
        self.0 = self.0.wrapping_add(0x9E37_79B9_7F4A_7C15);
        let mixed = (self.0 ^ (self.0 >> 30)).wrapping_mul(0xBF58_476D_1CE4_E5B9);
        let mixed = (mixed ^ (mixed >> 27)).wrapping_mul(0x94D0_49BB_1331_11EB);
        mixed ^ (mixed >> 31)
    }

    /// From 0 to one below the bound.
    pub fn below(&mut self, bound: u64) -> u64 {
        self.word() % bound
    }

    /// From 0 to the greatest.
    pub fn up_to(&mut self, greatest: u64) -> u64 {
        match greatest.checked_add(1) {
            Some(bound) => self.below(bound),
            None => self.word(),
        }
    }

    pub fn chance(&mut self, one_in: u64) -> bool {
        self.below(one_in) == 0
    }

    pub fn pick<T: Copy>(&mut self, from: &[T]) -> T {
        from[self.below(from.len() as u64) as usize]
    }

    /// A number of any length in bits, each length alike.
    pub fn sized(&mut self) -> u64 {
        self.word() >> self.below(64)
    }

    /// A number at a boundary or up to three beside it.
    pub fn edge(&mut self) -> u64 {
        let edge = self.pick(&EDGES);
        let beside = self.below(4);
        if self.chance(2) {
            edge.saturating_add(beside)
        } else {
            edge.saturating_sub(beside)
        }
    }

    pub fn any(&mut self) -> u64 {
        match self.below(4) {
            0 => self.edge(),
            1 => self.below(12),
            _ => self.sized(),
        }
    }

    /// This number or up to three beside it.
    pub fn near(&mut self, number: u64) -> u64 {
        let beside = self.below(4);
        if self.chance(2) {
            number.saturating_add(beside)
        } else {
            number.saturating_sub(beside)
        }
    }
}
