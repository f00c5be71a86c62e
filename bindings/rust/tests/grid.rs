//! The grid of a pool's ring: which grids an opening takes, when the newest entry is overwritten, and where
//! the index goes. Then grids that only a record built by hand has.

mod common;

use common::{opened_with, refuses_on};
use cp_swap::{Answer, Direction, Entry, Grid, Opening, Pool, Refusal, Ring, StatusBit, Sum};

const FIRST: u64 = 100;
const MARK: Entry = Entry { clock: u64::MAX, sums: [Sum { high: 7, low: 7 }; 2] };

fn opening(spacing: u64, length: u64) -> Opening {
    Opening { grid: Grid { spacing, length }, ..common::opening() }
}

fn opened(spacing: u64, length: u64) -> (Pool, Ring) {
    opened_with(opening(spacing, length))
}

/// An opened pool whose grid is then set by hand.
fn by_hand(spacing: u64, length: u64) -> (Pool, Ring) {
    let (pool, ring) = opened(15, 100);
    (Pool { grid: Grid { spacing, length }, ..pool }, ring)
}

fn swap(pool: &mut Pool, ring: &mut Ring, clock: u64) -> Answer {
    pool.swap_base_input(ring, Direction::ZeroForOne, 1_000, 1, clock)
}

/// Swaps so many seconds after the first; the newest entry's index and seconds after each.
fn entries_at<const N: usize>((mut pool, mut ring): (Pool, Ring), seconds: [u64; N]) -> [(u64, u64); N] {
    seconds.map(|seconds| {
        swap(&mut pool, &mut ring, FIRST + seconds).expect("the swap is accepted");
        let index = pool.ring.index;
        (index, ring.entries[index as usize].clock - FIRST)
    })
}

#[test]
fn an_opening_keeps_a_grid_in_range() {
    for (spacing, length) in [(1, 2), (1, 100), (3_600, 2), (3_600, 100)] {
        let (mut pool, mut ring) = opened(spacing, length);
        assert_eq!(pool.grid, Grid { spacing, length });
        swap(&mut pool, &mut ring, FIRST).expect("the swap is accepted");
        pool.deposit(&mut ring, 1_000, [u64::MAX; 2]).expect("the deposit is accepted");
        assert_eq!(pool.grid, Grid { spacing, length });
    }
    assert_eq!(Opening::default().grid, Grid { spacing: 15, length: 100 });
}

#[test]
fn an_opening_refuses_a_grid_out_of_range() {
    let refuses =
        |refusal, opening| refuses_on(opened(15, 100), refusal, |pool, ring| pool.open(ring, &opening));
    for spacing in [0, 3_601, u64::MAX] {
        refuses(Refusal::InvalidInput, opening(spacing, 2));
    }
    for length in [0, 1, 101, u64::MAX] {
        refuses(Refusal::InvalidInput, opening(1, length));
    }
    refuses(Refusal::EmptySupply, Opening { amounts: [0, 101], ..opening(0, 0) });
    refuses(Refusal::InvalidInput, Opening { amounts: [100, 100], ..opening(0, 0) });
}

#[test]
fn under_the_spacing_the_newest_entry_is_overwritten() {
    for spacing in [2, 15, 3_600] {
        let entries = entries_at(opened(spacing, 100), [0, spacing - 1, spacing, 2 * spacing - 1]);
        assert_eq!(entries, [(0, 0), (0, 0), (1, spacing), (1, spacing)]);
    }
    assert_eq!(entries_at(opened(1, 100), [0, 1, 1, 2]), [(0, 0), (1, 1), (1, 1), (2, 2)]);
}

/// Marks stand in the entries at and past the length: no swap reads or writes them.
#[test]
fn the_index_goes_round_within_the_length() {
    for length in [2, 3, 100] {
        let (mut pool, mut ring) = opened(1, length);
        ring.entries[length as usize..].fill(MARK);
        for at in 0..=2 * length {
            swap(&mut pool, &mut ring, FIRST + at).expect("the swap is accepted");
            assert_eq!(pool.ring.index, at % length);
            assert_eq!(ring.entries[(at % length) as usize].clock, FIRST + at);
        }
        assert!(ring.entries[length as usize..].iter().all(|entry| *entry == MARK));
    }
}

#[test]
fn a_swap_without_an_entry_in_the_ring_is_refused() {
    let wrong = [(0, 0), (0, 101), (0, u64::MAX), (2, 2), (3, 2), (100, 100), (100, 101), (u64::MAX, 100)];
    for (index, length) in wrong {
        for used in [0, 1] {
            let (mut pool, ring) = by_hand(15, length);
            (pool.ring.used, pool.ring.index) = (used, index);
            refuses_on((pool, ring.clone()), Refusal::Panic, |pool, ring| swap(pool, ring, FIRST));
            refuses_on((pool, ring), Refusal::Panic, |pool, ring| {
                pool.swap_base_output(ring, Direction::OneForZero, 1_000, u64::MAX, FIRST)
            });
        }
    }
}

#[test]
fn the_steps_before_come_first() {
    refuses_on(by_hand(15, 0), Refusal::ExceededSlippage, |pool, ring| {
        pool.swap_base_input(ring, Direction::ZeroForOne, 1_000, u64::MAX, FIRST)
    });
    let (mut pool, mut ring) = by_hand(15, 0);
    assert!(pool.deposit(&mut ring, 1_000, [u64::MAX; 2]).is_ok());
    assert!(pool.set_status(&mut ring, StatusBit::Swaps, true).is_ok());
    refuses_on((pool, ring), Refusal::NotApproved, |pool, ring| swap(pool, ring, FIRST));
}

#[test]
fn grids_by_hand() {
    let one_entry = entries_at(by_hand(15, 1), [0, 14, 15, 30]);
    assert_eq!(one_entry, [(0, 0), (0, 0), (0, 15), (0, 30)]);
    let no_spacing = entries_at(by_hand(0, 100), [0, 1, 1, 2]);
    assert_eq!(no_spacing, [(0, 0), (1, 1), (1, 1), (2, 2)]);
    let no_end = entries_at(by_hand(u64::MAX, 100), [0, 3_600, 1 << 40]);
    assert_eq!(no_end, [(0, 0); 3]);
}
