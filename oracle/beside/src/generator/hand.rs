//! Pools by hand: even ones, full ones, steep ones, and ones that no list of calls reaches.

use super::{arguments, charges, grids, Draws};
use crate::random::Random;
use record::{filled_ring, Case, Charge, Pool, Rates, RingHead, State, POOL_LENGTH};

pub fn case(random: &mut Random, draws: Draws) -> Case {
    let state = state(random, draws);
    let kind = random.pick(&[2, 2, 2, 3, 3, 3, 4, 5, 6, 7]);
    arguments::call(random, &state, kind)
}

/// A deposit or a withdrawal.
pub fn lp_case(random: &mut Random, draws: Draws) -> Case {
    let state = state(random, draws);
    let kind = random.pick(&[4, 5]);
    arguments::call(random, &state, kind)
}

pub fn state(random: &mut Random, draws: Draws) -> State {
    let mut pool = match random.below(5) {
        0 => small(random),
        1 => even(random),
        2 => full(random),
        3 => steep(random),
        _ => return inconsistent(random, draws),
    };
    pool.charges = charges::by_hand(random, draws.charges);
    pool.grid = grids::by_hand(random, draws.grids);
    pool.status = if random.chance(8) { random.below(8) } else { 0 };
    pool.open_time = if random.chance(4) { random.any() } else { 0 };
    pool.fee_model = if random.chance(30) { random.pick(&[3, 255]) } else { random.below(3) };
    pool.enabled = random.chance(2);
    pool.rates = rates(random);
    ring(random, pool)
}

pub fn rates(random: &mut Random) -> Rates {
    match random.below(6) {
        0 => {
            Rates { trade: 2500, protocol: 120_000, fund: 40_000, creator: random.pick(&[0, 1000]), share: 0 }
        }
        1 => Rates::default(),
        2 => {
            let trade = random.up_to(999_999);
            let protocol = random.up_to(1_000_000);
            let creator = random.pick(&[0, 1, 999_999 - trade]);
            let fund = random.pick(&[0, 1_000_000 - protocol]);
            Rates { trade, protocol, fund, creator, share: random.pick(&[0, 1, 500_000, 1_000_000]) }
        }
        3 => {
            let trade = random.pick(&[0, 1, 999_999]);
            let protocol = random.pick(&[0, 1, 1_000_000]);
            Rates {
                trade,
                protocol,
                fund: 1_000_000 - protocol,
                creator: 999_999 - trade,
                share: random.up_to(1_000_000),
            }
        }
        4 => Rates {
            trade: random.below(5000),
            protocol: random.below(500_000),
            fund: random.below(500_000),
            creator: random.below(5000),
            share: random.up_to(1_000_000),
        },
        _ => beyond(random),
    }
}

/// Rates at and past their limits, sums that wrap among them.
fn beyond(random: &mut Random) -> Rates {
    const RATES: [u64; 8] = [0, 1, 2500, 999_999, 1_000_000, 1_000_001, 1 << 63, u64::MAX];
    let mut rate = || random.pick(&RATES);
    Rates { trade: rate(), protocol: rate(), fund: rate(), creator: rate(), share: rate() }
}

fn small(random: &mut Random) -> Pool {
    let mut number = |bound| random.below(bound);
    Pool {
        vaults: [number(30), number(30)],
        protocol: [number(3), number(3)],
        fund: [number(3), number(3)],
        creator: [number(6), number(6)],
        supply: number(30),
        ..Pool::default()
    }
}

/// Nets of any length, with counters that the vaults hold.
fn even(random: &mut Random) -> Pool {
    let nets = [random.sized(), random.sized()];
    on_top(random, nets)
}

/// Vaults near the end of 64 bits.
fn full(random: &mut Random) -> Pool {
    let mut pool = on_top(random, [u64::MAX / 4, u64::MAX / 4]);
    for token in 0..2 {
        let room = if random.chance(2) { random.below(10) } else { random.sized() };
        pool.vaults[token] = u64::MAX - room;
        if random.chance(6) {
            pool.protocol[token] = pool.vaults[token].saturating_sub(random.sized() / 4);
        }
    }
    pool.supply = random.pick(&[u64::MAX, u64::MAX / 2, 1 << 32, 101, 1]);
    pool
}

/// One net of a few tokens against one of many.
fn steep(random: &mut Random) -> Pool {
    let few = 1 + random.below(4);
    let many = random.pick(&[1 << 32, 1 << 33, 1 << 40, 1 << 63, u64::MAX - 3]);
    let nets = if random.chance(2) { [few, random.near(many)] } else { [random.near(many), few] };
    on_top(random, nets)
}

/// One supply in four is below the locked LP or about them.
fn on_top(random: &mut Random, nets: [u64; 2]) -> Pool {
    let supply = if random.chance(4) { 1 + random.below(300) } else { random.sized().max(1) };
    let mut pool = Pool { supply, ..Pool::default() };
    for (token, net) in nets.into_iter().enumerate() {
        let longest = random.below(64);
        let mut counter = || if longest < 16 { 0 } else { random.word() >> longest.max(8) };
        (pool.protocol[token], pool.fund[token], pool.creator[token]) = (counter(), counter(), counter());
        let counters = [pool.protocol[token], pool.fund[token], pool.creator[token]];
        pool.vaults[token] = counters.into_iter().fold(net, u64::saturating_add);
    }
    pool
}

/// Heads and newest entries of every kind: first use, mark 0, clocks ahead, sums about to wrap.
fn ring(random: &mut Random, mut pool: Pool) -> State {
    let mark = if random.chance(5) { 0 } else { random.any() };
    let clock = if random.chance(4) {
        random.any()
    } else {
        mark.saturating_sub(grids::seconds(random, pool.grid) / 2)
    };
    let index = grids::index(random, pool.grid, 25);
    pool.head = RingHead { used: !random.chance(6), index, mark };
    let mut half = || random.pick(&[0, 1, 1 << 32, 1 << 63, u64::MAX - 5, u64::MAX]);
    State { pool, ring: filled_ring(index, [clock, half(), half(), half(), half()]) }
}

/// Every number as it comes: counters above vaults, sums past 64 bits, an index past the ring.
fn inconsistent(random: &mut Random, draws: Draws) -> State {
    let mut words: [u64; POOL_LENGTH] = std::array::from_fn(|_| random.any());
    words[21..25].copy_from_slice(&Charge::words(charges::by_hand(random, draws.charges)));
    let grid = grids::by_hand(random, draws.grids);
    words[25..].copy_from_slice(&grid.words());
    words[9] = if random.chance(20) { random.any() } else { random.below(8) };
    words[11] = if random.chance(20) { random.any() } else { random.below(4) };
    (words[12], words[18]) = (random.below(2), random.below(2));
    words[19] = if random.chance(10) { random.any() } else { random.up_to(grid.length.min(100)) };
    if !random.chance(4) {
        words[10] = 0;
        let rates = rates(random);
        words[13..18].copy_from_slice(&[rates.trade, rates.protocol, rates.fund, rates.creator, rates.share]);
    }
    if !random.chance(3) {
        words[2..8].fill_with(|| random.sized() >> 8);
    }
    let pool = Pool::from_words(&words).expect("yes or no was chosen where it is due");
    let entry = std::array::from_fn(|_| random.any());
    State { pool, ring: filled_ring(pool.head.index, entry) }
}
