//! Document 01, 'oracle.rs', with document 02 (f): spacing and length are the pool's. Entries at or past
//! the length are neither read nor written.

use crate::refusal::{refuse_if, MATH_OVERFLOW, PANIC};
use crate::whole::{from_halves, two_to, whole, Whole};
use record::{Grid, Ring, RingHead};

const MOST_ENTRIES: u64 = 100;

/// Price 0 is net 1 times 2^32 over net 0, rounded down; price 1 is its mirror. No net is 0.
pub fn prices(nets: [Whole; 2]) -> [Whole; 2] {
    [nets[1] * two_to(32) / nets[0], nets[0] * two_to(32) / nets[1]]
}

/// Counts the prices for the seconds since the mark.
pub fn update(
    head: &mut RingHead,
    grid: Grid,
    ring: &mut Ring,
    clock: u64,
    prices: [Whole; 2],
) -> Result<(), u64> {
    refuse_if(grid.length > MOST_ENTRIES || head.index >= grid.length, PANIC)?;
    let newest = head.index as usize;
    if !head.used {
        ring[newest] = [clock, 0, 0, 0, 0];
        *head = RingHead { used: true, mark: clock, ..*head };
        return Ok(());
    }
    let [entry_clock, ..] = ring[newest];
    if head.mark == 0 {
        head.mark = entry_clock;
    }
    if clock <= head.mark || clock <= entry_clock {
        return Ok(());
    }
    let sums = sums_after(&ring[newest], prices, clock - head.mark)?;
    if clock - entry_clock < grid.spacing {
        ring[newest] = with_sums(entry_clock, sums);
    } else {
        head.index = if head.index == grid.length - 1 { 0 } else { head.index + 1 };
        ring[head.index as usize] = with_sums(clock, sums);
    }
    head.mark = clock;
    Ok(())
}

/// The sums wrap at 2^128; a price times the seconds may not pass it.
fn sums_after(entry: &[u64; 5], prices: [Whole; 2], seconds: u64) -> Result<[Whole; 2], u64> {
    let added = prices.map(|price| price * whole(seconds));
    refuse_if(added.iter().any(|product| *product >= two_to(128)), MATH_OVERFLOW)?;
    let [_, high_0, low_0, high_1, low_1] = *entry;
    Ok([from_halves(high_0, low_0) + added[0], from_halves(high_1, low_1) + added[1]])
}

fn with_sums(clock: u64, sums: [Whole; 2]) -> [u64; 5] {
    let [(high_0, low_0), (high_1, low_1)] = sums.map(Whole::halves);
    [clock, high_0, low_0, high_1, low_1]
}
