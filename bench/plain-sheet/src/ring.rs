//! The ring of prices, with the one spacing and length that a day sheet's pools have.

use crate::pool::{OVERFLOW, PANIC};

const ENTRIES: usize = 100;
const NEW_ENTRY_AFTER: u64 = 15;

#[derive(Clone, Copy, Default)]
struct Entry {
    clock: u64,
    sums: [u128; 2],
}

#[derive(Clone)]
pub struct Ring {
    entries: [Entry; ENTRIES],
    used: bool,
    index: usize,
    mark: u64,
}

impl Default for Ring {
    fn default() -> Ring {
        Ring { entries: [Entry::default(); ENTRIES], used: false, index: 0, mark: 0 }
    }
}

impl Ring {
    /// Counts the prices of these nets; a refused update has changed nothing.
    pub fn update(&mut self, clock: u64, nets: [u64; 2]) -> Result<(), u64> {
        let newest = *self.entries.get(self.index).ok_or(PANIC)?;
        if !self.used {
            self.entries[self.index] = Entry { clock, sums: [0, 0] };
            (self.used, self.mark) = (true, clock);
            return Ok(());
        }
        let mark = if self.mark == 0 { newest.clock } else { self.mark };
        if clock <= mark || clock <= newest.clock {
            self.mark = mark;
            return Ok(());
        }
        let [net_0, net_1] = nets.map(u128::from);
        let mut sums = newest.sums;
        for (sum, price) in sums.iter_mut().zip([(net_1 << 32) / net_0, (net_0 << 32) / net_1]) {
            let added = price.checked_mul(u128::from(clock - mark)).ok_or(OVERFLOW)?;
            *sum = sum.wrapping_add(added);
        }
        if clock - newest.clock < NEW_ENTRY_AFTER {
            self.entries[self.index].sums = sums;
        } else {
            self.index = (self.index + 1) % ENTRIES;
            self.entries[self.index] = Entry { clock, sums };
        }
        self.mark = clock;
        Ok(())
    }
}
