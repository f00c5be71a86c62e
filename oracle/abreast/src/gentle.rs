//! Lists that a pool lives long with: openings of some size, swaps and changes of LP that leave
//! most of it, and a clock that goes on by less than the ring's spacing or by more.

use beside::generator::{grids, list, Draws};
use beside::random::Random;
use record::{Case, Opening, Rates, State, LOCKED_LP};

/// One list in so many is at a rate sum of 0.
const FREE_ONE_IN: u64 = 8;
/// One withdrawal in so many leaves just the locked LP, and one in so many would leave fewer.
const DRAINED_ONE_IN: u64 = 200;
const REFUSED_ONE_IN: u64 = 10;

pub fn opening(random: &mut Random, draws: Draws) -> Case {
    let amounts = [1_000_000 + (random.word() >> random.below(40)) / 4, 1_000_000 + random.sized() / 4];
    let (protocol, fund, share) = (random.below(500_000), random.below(500_000), random.below(1_000_001));
    let free = random.chance(FREE_ONE_IN);
    let (trade, creator) = if free { (0, 0) } else { (1 + random.below(20_000), random.below(20_000)) };
    let rates = Rates { trade, protocol, fund, creator, share };
    let (fee_model, enabled) = (random.below(3), random.below(2));
    let (charges, grid) = ((draws.charges)(random), (draws.grids)(random));
    list::of(Opening { amounts, fee_model, enabled, open_time: 0, rates, charges, grid })
}

pub fn call(random: &mut Random, state: &State) -> Case {
    let (kind, arguments) = match random.below(20) {
        0..7 => (2, swap(random, state, 2)),
        7..14 => (3, swap(random, state, 3)),
        14..16 => (4, vec![some_of(random, state.pool.supply), u64::MAX, u64::MAX]),
        16..18 => (5, vec![withdrawn(random, state.pool.supply), u64::MAX, 0, 0]),
        18 => (6, vec![random.below(1_000_001)]),
        _ => (7, vec![random.below(3), u64::from(random.chance(20))]),
    };
    Case::of_call(state, kind, &arguments)
}

/// Mostly with a wide limit, sometimes with one that is as likely too narrow.
fn swap(random: &mut Random, state: &State, kind: u64) -> Vec<u64> {
    let direction = random.below(2);
    let (token, wide) = if kind == 2 { (direction, 0) } else { (1 - direction, u64::MAX) };
    let amount = some_of(random, state.pool.vaults[token as usize]);
    let limit = if random.chance(10) { random.near(amount) } else { wide };
    let clock = state.pool.head.mark + grids::seconds(random, state.pool.grid);
    vec![direction, amount, limit, clock]
}

fn withdrawn(random: &mut Random, supply: u64) -> u64 {
    if random.chance(DRAINED_ONE_IN) {
        supply.saturating_sub(LOCKED_LP)
    } else if random.chance(REFUSED_ONE_IN) {
        supply.saturating_sub(random.below(LOCKED_LP))
    } else {
        some_of(random, supply)
    }
}

/// Up to a sixteenth.
fn some_of(random: &mut Random, whole: u64) -> u64 {
    random.up_to(whole / 16) >> random.below(8)
}
