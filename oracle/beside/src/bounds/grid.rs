//! Document 02 (f): spacing and length of the price ring, of openings and of pools by hand.

use super::*;

pub fn bounds() -> Vec<Bound> {
    let named = [
        openings(),
        openings_in_order(),
        spacings(),
        far_spacings(),
        lengths(),
        past_the_length(),
        first_uses(),
        long_lengths(),
        before_the_ring(),
        in_the_ring(),
        by_output(),
        lists(),
        other_calls(),
    ];
    named.into_iter().flatten().collect()
}

fn grid(spacing: u64, length: u64) -> Grid {
    Grid { spacing, length }
}

/// The worked opening of these amounts at this grid.
fn opening_at(amounts: [u64; 2], grid: Grid) -> Case {
    let mut case = opening(amounts, 0, 0, [2500, 120_000, 40_000, 0, 0]);
    case.columns[14..].copy_from_slice(&grid.words());
    case
}

impl Bound {
    /// Spacing and length of the answer's pool.
    fn at(mut self, grid: Grid) -> Bound {
        self.shows.extend([("spacing", grid.spacing), ("length", grid.length)]);
        self
    }

    /// Index and mark, and the clock of the entry at the index.
    fn newest(mut self, index: u64, mark: u64, clock: u64) -> Bound {
        self.shows.extend([("ring index", index), ("ring mark", mark), ("entry clock", clock)]);
        self
    }
}

/// Each bound of spacing and length, with every bound of the other.
fn openings() -> Vec<Bound> {
    let spacings = [(0, 3), (1, 0), (2, 0), (15, 0), (3599, 0), (3600, 0), (3601, 3), (MOST, 3)];
    let lengths = [(0, 3), (1, 3), (2, 0), (3, 0), (99, 0), (100, 0), (101, 3), (MOST, 3)];
    let mut out = vec![];
    for (spacing, by_spacing) in spacings {
        for (length, by_length) in lengths {
            let number: u64 = by_spacing.max(by_length);
            let case = opening_at([MILLION, MILLION], grid(spacing, length));
            let kept = if number == 0 { grid(spacing, length) } else { grid(0, 0) };
            let says = format!("an opening with spacing {spacing} and length {length}");
            out.push(bound(says, number, case).at(kept));
        }
    }
    out
}

/// Spacing or length out of range and another test that fails: 6 and 9 come before, all other 3 are the
/// same number, and 13 comes behind.
fn openings_in_order() -> Vec<Bound> {
    let grids = [grid(0, 100), grid(3601, 100), grid(15, 1), grid(15, 101)];
    let mut out = vec![];
    for grid in grids {
        let with = |says: &str, number, amounts, changes: &[(usize, u64)]| {
            let mut case = opening_at(amounts, grid);
            changes.iter().for_each(|(column, value)| case.columns[*column] = *value);
            let Grid { spacing, length } = grid;
            bound(format!("spacing {spacing}, length {length}, {says}"), number, case)
        };
        let day = [MILLION, 4 * MILLION];
        out.extend([
            with("an amount of 0", 6, [0, 5], &[]),
            with("model 3", 9, day, &[(2, 3)]),
            with("model 3, supply 5", 9, [5, 5], &[(2, 3)]),
            with("enabled 2", 3, day, &[(3, 2)]),
            with("trade + creator 1,000,000", 3, day, &[(5, 999_999), (8, 1)]),
            with("protocol + fund 1,000,001", 3, day, &[(6, MILLION), (7, 1)]),
            with("share 1,000,001", 3, day, &[(9, MILLION + 1)]),
            with("10,000 points", 3, day, &[(10, 10_000)]),
            with("9,999 points", 3, day, &[(10, 9999)]),
            with("supply 100", 3, [100, 100], &[]),
            with("supply 101", 3, [101, 101], &[]),
        ]);
    }
    out.push(bound("spacing 1, length 2, supply 100", 13, opening_at([100, 100], grid(1, 2))));
    out.push(bound("spacing 3,600, length 100, supply 100", 13, opening_at([100, 100], grid(3600, 100))));
    out
}

const NETS: [u64; 2] = [3000, 7000];

/// A pool of this grid and head; the nets are not alike.
fn pool(grid: Grid, head: RingHead) -> Pool {
    Pool { head, grid, ..trade(NETS, 1) }
}

/// In a swap and alone: the entry at the index is of clock 100, and so many seconds later it is
/// overwritten or the next is written.
fn after_seconds(grid: Grid, index: u64, seconds: u64, next: u64) -> [Bound; 2] {
    let Grid { spacing, length } = grid;
    let clock = 100 + seconds;
    let kept = if seconds < spacing { 100 } else { clock };
    let says = format!("spacing {spacing}, length {length}, index {index}, {seconds} seconds later");
    let entry = [100, 1, 2, 3, 4];
    let bounds = in_swap_and_alone(&says, 0, pool(grid, head(true, index, 100)), entry, clock);
    bounds.map(|bound| bound.newest(next, clock, kept).at(grid))
}

/// One second less than the spacing, the spacing, and one more.
fn spacings() -> Vec<Bound> {
    let mut out = vec![];
    for spacing in [0u64, 1, 2, 3, 14, 15, 16, 3599, 3600, 3601, 1 << 32] {
        for seconds in [spacing.saturating_sub(1), spacing, spacing + 1] {
            // Where no second has passed nothing is written.
            if seconds > 0 {
                let next = if seconds < spacing { 4 } else { 5 };
                out.extend(after_seconds(grid(spacing, 7), 4, seconds, next));
            }
        }
    }
    out
}

/// A spacing of 2^64 - 1 seconds overwrites until so many have passed. Of even nets a price is 2^32.
fn far_spacings() -> Vec<Bound> {
    let at = |says, spacing, entry_clock, clock, index, kept| {
        let head = head(true, 0, 0);
        let pool = Pool { vaults: [3, 3], ..pool(grid(spacing, 2), head) };
        let bounds = in_swap_and_alone(says, 0, pool, [entry_clock, 0, 0, 0, 0], clock);
        bounds.map(|bound| bound.newest(index, clock, kept))
    };
    [
        at("spacing 2^64 - 1, 2^64 - 2 seconds later", MOST, 1, MOST, 0, 1),
        at("spacing 2^64 - 1, 2^64 - 1 seconds later", MOST, 0, MOST, 1, MOST),
        at("spacing 2^63, 2^63 - 1 seconds later", HALF, 1, HALF, 0, 1),
        at("spacing 2^63, 2^63 seconds later", HALF, 1, HALF + 1, 1, HALF + 1),
        at("spacing 0, 2^64 - 1 seconds later", 0, 0, MOST, 1, MOST),
    ]
    .into_iter()
    .flatten()
    .collect()
}

/// The last index of each length goes to 0, the one before it to the last; below the spacing each stays.
fn lengths() -> Vec<Bound> {
    let mut out = vec![];
    for length in [1, 2, 3, 4, 50, 98, 99, 100] {
        for spacing in [0, 1, 15, 3600] {
            let grid = grid(spacing, length);
            out.extend(after_seconds(grid, length - 1, spacing.max(1), 0));
            if length > 1 {
                out.extend(after_seconds(grid, length - 2, spacing.max(1), length - 1));
            }
            if spacing > 1 {
                out.extend(after_seconds(grid, length - 1, spacing - 1, length - 1));
            }
        }
    }
    out
}

/// An index at or past the length is 11, of a used ring and of an unused one, even where no second has
/// passed.
fn past_the_length() -> Vec<Bound> {
    let mut out = vec![];
    for length in [0, 1, 2, 3, 50, 98, 99, 100] {
        for index in [length, length + 1, 99, 100, 65_535, MOST] {
            if index < length {
                continue;
            }
            for (used, clock) in [(false, 115), (true, 115), (true, 100)] {
                let says = format!("index {index} at length {length}, used {used}, clock {clock}");
                let entry = if index < 100 { [100, 1, 2, 3, 4] } else { [0; 5] };
                let pool = pool(grid(15, length), head(used, index, 100));
                let bounds = in_swap_and_alone(&says, 11, pool, entry, clock);
                out.extend(bounds.map(|bound| Bound { shows: vec![("ring index", index)], ..bound }));
            }
        }
    }
    out
}

/// At the last index of each length the first use is accepted, and writes there.
fn first_uses() -> Vec<Bound> {
    let mut out = vec![];
    for length in [1, 2, 3, 99, 100] {
        for index in [0, length - 1] {
            let says = format!("first use at index {index} of length {length}");
            let pool = pool(grid(3600, length), head(false, index, 7));
            let bounds = in_swap_and_alone(&says, 0, pool, [100, 1, 2, 3, 4], 50);
            out.extend(bounds.map(|bound| bound.newest(index, 50, 50)));
        }
    }
    out
}

/// A length above 100 is 11, whatever the index.
fn long_lengths() -> Vec<Bound> {
    let mut out = vec![];
    for length in [101, 102, 65_536, MOST] {
        for index in [0, 1, 99, 100, 101] {
            for used in [false, true] {
                let says = format!("length {length}, index {index}, used {used}");
                let entry = if index < 100 { [100, 1, 2, 3, 4] } else { [0; 5] };
                let pool = pool(grid(15, length), head(used, index, 100));
                out.extend(in_swap_and_alone(&says, 11, pool, entry, 115));
            }
        }
    }
    out
}

/// The three ways to fail in the ring's first step, and the tests of a swap before it, which come first.
fn before_the_ring() -> Vec<Bound> {
    let at_index_2 = |pool| Pool { head: head(true, 2, 100), ..pool };
    let [sum, vault] = counters_past();
    let limits = Pool { rates: rated(MILLION, 0, 0, 0, 0), ..day() };
    // A counter and a vault past u64 behind the limit.
    let counter = Pool { protocol: [MOST - 1000, 0], ..trade([MOST, 1000], 500_000) };
    let counter = Pool { rates: rated(500_000, MILLION, 0, 0, 0), ..counter };
    let full = Pool { vaults: [MOST - 10, 4 * MILLION], fund: [MOST - MILLION, 0], ..day() };
    // The pool, and direction, amount and minimum.
    let rows = [
        ("rates past the limits", 3, limits, [0, 10_000, 1]),
        ("closed", 1, Pool { status: 4, ..day() }, [0, 10_000, 1]),
        ("before the open time", 1, Pool { open_time: 116, ..day() }, [0, 10_000, 1]),
        ("of 0", 10, day(), [0, 0, 1]),
        ("direction 2", 5, day(), [2, 10_000, 1]),
        ("counters' sum 2^64", 8, sum, [0, 10_000, 1]),
        ("a counter above its vault", 7, vault, [0, 10_000, 1]),
        ("a net of 0", 11, Pool { vaults: [0, 9], ..day() }, [0, 10_000, 1]),
        ("model 3", 9, Pool { fee_model: 3, ..day() }, [0, 10_000, 1]),
        ("output 0", 10, day(), [0, 1, 1]),
        ("output below the minimum", 2, day(), [0, 10_000, MOST]),
        ("a counter past u64", 11, counter, [0, 4000, 1]),
        ("a vault past u64", 8, full, [0, 10_000, 1]),
        ("no other test", 11, day(), [0, 10_000, 1]),
    ];
    let grids = [("length 0", grid(15, 0)), ("length 2, index 2", grid(1, 2)), ("length 101", grid(15, 101))];
    let mut out = vec![];
    for (says, number, pool, [direction, amount, minimum]) in rows {
        for (at, grid) in grids {
            let pool = Pool { grid, ..at_index_2(pool) };
            let case = at_entry(pool, [100, 1, 2, 3, 4], 2, &[direction, amount, minimum, 115]);
            out.push(bound(format!("{at}, {says}"), number, case).at(grid));
        }
    }
    out
}

/// Price times seconds of 2^128: 8 at every grid that passes the first step, whether the entry would be
/// overwritten or the next written, and 11 where the first step fails too.
fn in_the_ring() -> Vec<Bound> {
    let rows = [
        ("length 2, index 1, overwritten", 8, MOST, 2, 1),
        ("length 2, index 1, moved on", 8, 1, 2, 1),
        ("length 1, index 0", 8, 15, 1, 0),
        ("length 100, index 99, spacing 3,600", 8, 3600, 100, 99),
        ("length 2, index 2", 11, 1, 2, 2),
        ("length 0, index 0", 11, 15, 0, 0),
        ("length 101, index 0", 11, 15, 101, 0),
        ("length 101, index 99", 11, 1, 101, 99),
        ("length 2^64 - 1, index 0", 11, MOST, MOST, 0),
    ];
    let mut out = vec![];
    for (says, number, spacing, length, index) in rows {
        for mark in [0, 1] {
            let says = format!("price × seconds 2^128, mark {mark}, {says}");
            let pool = pool(grid(spacing, length), head(true, index, mark));
            let steep = Pool { vaults: [1, 1 << 33], ..pool };
            out.extend(in_swap_and_alone(&says, number, steep, [0; 5], HALF + mark));
        }
    }
    out
}

/// Swaps by output have the same ring.
fn by_output() -> Vec<Bound> {
    let swap = |grid, index, clock| {
        at_entry(pool(grid, head(true, index, 100)), [100, 1, 2, 3, 4], 3, &[0, 9, MOST, clock])
    };
    let entry = |says: &str, grid, index, clock, next, kept| {
        bound(format!("by output, {says}"), 0, swap(grid, index, clock)).newest(next, clock, kept)
    };
    vec![
        entry("spacing 1, 1 second later", grid(1, 2), 0, 101, 1, 101),
        entry("spacing 1, length 2, index 1", grid(1, 2), 1, 101, 0, 101),
        entry("spacing 3,600, 3,599 seconds later", grid(3600, 2), 1, 3699, 1, 100),
        entry("spacing 3,600, 3,600 seconds later", grid(3600, 2), 1, 3700, 0, 3700),
        entry("length 1", grid(15, 1), 0, 115, 0, 115),
        bound("by output, index 2 at length 2", 11, swap(grid(1, 2), 2, 101)),
        bound("by output, index 0 at length 0", 11, swap(grid(1, 0), 0, 101)),
        bound("by output, length 101", 11, swap(grid(15, 101), 0, 115)),
    ]
}

/// From openings, the index of the entry after swaps at these clocks, of which the last is the row's.
fn lists() -> Vec<Bound> {
    // Spacing and length, the clocks, the last swap's index and its entry's clock.
    let rows: [(Grid, &[u64], u64, u64); 11] = [
        (grid(1, 2), &[100], 0, 100),
        (grid(1, 2), &[100, 101], 1, 101),
        (grid(1, 2), &[100, 101, 102], 0, 102),
        (grid(1, 2), &[100, 101, 102, 103], 1, 103),
        (grid(1, 2), &[100, 101, 101], 1, 101),
        (grid(2, 3), &[100, 101, 102, 103, 104], 2, 104),
        (grid(2, 3), &[100, 101, 102, 103, 104, 105, 106], 0, 106),
        (grid(2, 3), &[100, 101, 102, 103, 104, 105], 2, 104),
        (grid(3600, 100), &[0, 3599], 0, 0),
        (grid(3600, 100), &[0, 3599, 3600], 1, 3600),
        (grid(3600, 2), &[0, 3600, 7199, 7200], 0, 7200),
    ];
    let mut out = vec![];
    for (grid, clocks, index, kept) in rows {
        let Grid { spacing, length } = grid;
        let (last, earlier) = clocks.split_last().expect("a list holds a swap");
        let opened = opening_at([MILLION, 4 * MILLION], grid);
        let next =
            |state: State, case: Case| model::run(&state, &case.call().expect("a list holds calls")).state;
        let swap = |state: &State, clock: u64| Case::of_call(state, 2, &[clock % 2, 10_000, 1, clock]);
        let opened = next(model::empty(), opened);
        let state = earlier.iter().fold(opened, |state, clock| {
            let case = swap(&state, *clock);
            next(state, case)
        });
        let says = format!("spacing {spacing}, length {length}, swaps at {clocks:?}");
        out.push(bound(says, 0, swap(&state, *last)).newest(index, *last, kept).at(grid));
    }
    out
}

/// No other call looks at grid or index.
fn other_calls() -> Vec<Bound> {
    let grids = [(grid(0, 0), 0), (grid(15, 2), 2), (grid(1, 101), 100), (grid(MOST, MOST), MOST)];
    let mut out = vec![];
    for (grid, index) in grids {
        let pool = Pool { grid, head: head(true, index, 5), creator: [10, 0], ..day() };
        let call = |says: &str, kind, arguments: &[u64]| {
            let Grid { spacing, length } = grid;
            let says = format!("{says} at spacing {spacing}, length {length}, index {index}");
            bound(says, 0, on(pool, kind, arguments)).at(grid)
        };
        out.extend([
            call("a deposit", 4, &[3, MOST, MOST]),
            call("a withdrawal", 5, &[3, 3, 0, 0]),
            call("a settlement", 6, &[0]),
            call("a status change", 7, &[2, 1]),
        ]);
    }
    out
}
