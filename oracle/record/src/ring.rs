//! The price ring's hundred entries, of which a pool uses those before its length, and the ring alone.

use crate::pool::{Grid, RingHead};

pub const RING_ENTRIES: usize = 100;

pub const ENTRY_LENGTH: usize = 5;

/// Clock, then the high and low half of either sum.
pub type Entry = [u64; ENTRY_LENGTH];
pub type Ring = [Entry; RING_ENTRIES];

pub const ENTRY_COLUMNS: [&str; ENTRY_LENGTH] =
    ["entry clock", "sum 0 high", "sum 0 low", "sum 1 high", "sum 1 low"];

/// A ring in which word w holds 10,000 + w, so that every stray write shows, but for the
/// entry at the index. An index past the ring has no entry.
pub fn filled_ring(index: u64, entry: Entry) -> Ring {
    let mut ring: Ring = std::array::from_fn(|i| std::array::from_fn(|j| 10_000 + (5 * i + j) as u64));
    if let Some(place) = place(index) {
        ring[place] = entry;
    }
    ring
}

/// The entry at the index; zeros where the index is past the ring.
pub fn entry_at(ring: &Ring, index: u64) -> Entry {
    place(index).map_or([0; 5], |place| ring[place])
}

/// Whether the two rings are the same but for the entry at the index.
pub fn only_newest_written(before: &Ring, after: &Ring, index: u64) -> bool {
    let newest = place(index);
    (0..RING_ENTRIES).all(|i| Some(i) == newest || before[i] == after[i])
}

/// What a case of the ring alone begins with: head, grid and the entry at the index are lent, the clock
/// is not.
pub struct RingAlone {
    pub head: RingHead,
    pub grid: Grid,
    pub entry: Entry,
    pub clock: u64,
}

/// How many words of such a case are lent; behind them is the clock, then prices or nets.
pub const RING_LENT: usize = 10;

impl RingAlone {
    /// None where words are missing.
    pub fn from_words(words: &[u64]) -> Option<RingAlone> {
        let [used, index, mark, spacing, length, ref rest @ ..] = *words else {
            return None;
        };
        let [clock, sum_0_high, sum_0_low, sum_1_high, sum_1_low, now, ..] = *rest else {
            return None;
        };
        Some(RingAlone {
            head: RingHead { used: used == 1, index, mark },
            grid: Grid { spacing, length },
            entry: [clock, sum_0_high, sum_0_low, sum_1_high, sum_1_low],
            clock: now,
        })
    }

    /// The lent words after an update, which leaves the grid.
    pub fn words_after(&self, head: RingHead, ring: &Ring) -> Vec<u64> {
        let mut words = vec![head.used.into(), head.index, head.mark];
        words.extend(self.grid.words());
        words.extend(entry_at(ring, head.index));
        words
    }
}

fn place(index: u64) -> Option<usize> {
    usize::try_from(index).ok().filter(|place| *place < RING_ENTRIES)
}
