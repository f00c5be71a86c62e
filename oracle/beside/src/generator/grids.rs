//! Spacing and length of a pool's price ring.

use crate::random::Random;
use record::Grid;

/// How the grid of a pool is chosen.
pub type Grids = fn(&mut Random) -> Grid;

/// Spacings and lengths that an opening accepts, the small ones above all.
const SPACINGS: [u64; 9] = [1, 1, 2, 3, 14, 15, 16, 3599, 3600];
const LENGTHS: [u64; 9] = [2, 2, 2, 3, 4, 50, 98, 99, 100];
/// Those that only a pool built by hand can have.
const SPACINGS_BY_HAND: [u64; 4] = [0, 0, 3601, u64::MAX];
const LENGTHS_BY_HAND: [u64; 6] = [0, 1, 1, 101, 101, u64::MAX];
/// Seconds at times go up to a little more than twice a spacing of so many.
const LONG: u64 = 3600;

/// 15 and 100: there the original is run beside.
pub fn usual(_: &mut Random) -> Grid {
    Grid::DEFAULT
}

/// Every other that an opening accepts.
pub fn other(random: &mut Random) -> Grid {
    let spacing = if random.chance(4) { 1 + random.below(3600) } else { random.pick(&SPACINGS) };
    let length = if random.chance(4) { 2 + random.below(99) } else { random.pick(&LENGTHS) };
    match (Grid { spacing, length }) {
        Grid::DEFAULT => Grid { length: 2, ..Grid::DEFAULT },
        grid => grid,
    }
}

/// Two in three are 15 and 100.
pub fn mixed(random: &mut Random) -> Grid {
    if random.chance(3) {
        other(random)
    } else {
        Grid::DEFAULT
    }
}

/// Those of a pool built by hand: where it is not 15 and 100, at times one that no opening accepts.
pub fn by_hand(random: &mut Random, grids: Grids) -> Grid {
    let grid = grids(random);
    if grid == Grid::DEFAULT || !random.chance(4) {
        return grid;
    }
    match random.below(3) {
        0 => Grid { spacing: random.pick(&SPACINGS_BY_HAND), ..grid },
        1 => Grid { length: random.pick(&LENGTHS_BY_HAND), ..grid },
        _ => Grid { spacing: random.pick(&SPACINGS_BY_HAND), length: random.pick(&LENGTHS_BY_HAND) },
    }
}

/// An index of a pool built by hand: mostly before the length, at its end above all; one in so many is past
/// it, or past the hundred entries.
pub fn index(random: &mut Random, grid: Grid, past_one_in: u64) -> u64 {
    let length = grid.length.min(101);
    if length == 0 || random.chance(past_one_in) {
        return random.pick(&[length, length, length + 1, 99, 100, 65_535, u64::MAX]);
    }
    let last = length - 1;
    random.pick(&[0, 1.min(last), length / 2, last.saturating_sub(1), last])
}

/// Seconds that pass: up to a little more than twice the spacing.
pub fn seconds(random: &mut Random, grid: Grid) -> u64 {
    random.below(2 * grid.spacing.min(LONG) + 10)
}
