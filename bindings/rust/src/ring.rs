//! The ring of prices.

/// How many entries are lent to a call, whatever number of them the pool uses.
pub const RING_ENTRIES: usize = 100;

/// A sum modulo 2^128, in two halves.
#[repr(C)]
#[derive(Clone, Copy, Debug, Default, PartialEq, Eq)]
pub struct Sum {
    /// The upper 64 bits.
    pub high: u64,
    /// The lower 64 bits.
    pub low: u64,
}

impl Sum {
    /// The sum as one number.
    pub fn value(self) -> u128 {
        u128::from(self.high) << 64 | u128::from(self.low)
    }
}

/// The two sums of price times seconds at a clock; prices are times 2^32.
#[repr(C)]
#[derive(Clone, Copy, Debug, Default, PartialEq, Eq)]
pub struct Entry {
    /// When the entry was begun.
    pub clock: u64,
    /// Of token 0 in token 1, and of token 1 in token 0.
    pub sums: [Sum; 2],
}

/// A hundred entries, lent to each call beside the pool. Swaps read and write the first
/// [`Grid::length`](crate::Grid::length) of them; an accepted opening sets all to 0.
#[repr(C)]
#[derive(Clone, Debug, PartialEq, Eq)]
pub struct Ring {
    /// In the order of their index.
    pub entries: [Entry; RING_ENTRIES],
}

impl Default for Ring {
    fn default() -> Ring {
        Ring { entries: [Entry::default(); RING_ENTRIES] }
    }
}
