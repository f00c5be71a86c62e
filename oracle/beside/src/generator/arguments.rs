//! Arguments for a call on a state: at and beside what the pool holds, and limits that just
//! pass or just fail.

use super::charges::most_arriving;
use super::grids;
use crate::random::Random;
use model::calls::{charged, nets};
use record::{entry_at, Call, Case, State, LOCKED_LP};

pub fn call(random: &mut Random, state: &State, kind: u64) -> Case {
    let arguments = match kind {
        2 | 3 => swap(random, state, kind),
        4 | 5 => liquidity(random, state, kind),
        6 => vec![share(random, state)],
        _ => vec![status_number(random, 3), status_number(random, 2)],
    };
    Case::of_call(state, kind, &arguments)
}

/// Mostly 0 up to the bound, sometimes past it.
fn status_number(random: &mut Random, bound: u64) -> u64 {
    if random.chance(6) {
        random.any()
    } else {
        random.below(bound)
    }
}

fn share(random: &mut Random, state: &State) -> u64 {
    match random.below(4) {
        0 => state.pool.rates.share,
        1 => random.pick(&[0, 1, 999_999, 1_000_000, 1_000_001, u64::MAX]),
        _ => random.up_to(1_000_000),
    }
}

fn swap(random: &mut Random, state: &State, kind: u64) -> Vec<u64> {
    let direction = if random.chance(40) { random.pick(&[2, 3, u64::MAX]) } else { random.below(2) };
    let clock = clock(random, state);
    // A closed pool asked for 0 shows which of the two tests comes first.
    let closed = state.pool.status_bit(2) || clock < state.pool.open_time;
    let amount = if closed && random.chance(3) { 0 } else { swap_amount(random, state, kind, direction) };
    let loose = if kind == 2 { 0 } else { u64::MAX };
    let arguments = [direction, amount, loose, clock];
    let limit = match random.below(8) {
        0 => random.any(),
        1 | 2 => beside_price(random, state, kind, arguments),
        _ => loose,
    };
    vec![direction, amount, limit, clock]
}

/// The limit at which the swap just passes, or one beside it; at times the vault's amount, which is not
/// the solver's where there are charges.
fn beside_price(random: &mut Random, state: &State, kind: u64, arguments: [u64; 4]) -> u64 {
    let call = Call::from_words(kind, &arguments).expect("a swap takes four words");
    let receipt = model::run(state, &call).receipt;
    let token_in = usize::from(receipt.direction != 0);
    let price = match (kind, random.chance(4)) {
        (2, false) => receipt.received(1 - token_in),
        (2, true) => receipt.paid_out[1 - token_in],
        (_, false) => receipt.sent(token_in),
        (_, true) => receipt.paid_in[token_in],
    };
    let beside = random.below(3);
    price.saturating_add(beside).saturating_sub(1)
}

fn swap_amount(random: &mut Random, state: &State, kind: u64, direction: u64) -> u64 {
    let vaults = state.pool.vaults;
    let (token_in, token_out) = if direction == 0 { (0, 1) } else { (1, 0) };
    let (vault_in, vault_out) = (vaults[token_in], vaults[token_out]);
    let (charge_in, charge_out) = (state.pool.charges[token_in], state.pool.charges[token_out]);
    match random.below(9) {
        0 => random.below(20),
        1 => random.any(),
        2 => random.near(u64::MAX - vault_in),
        3 => random.near(vault_out),
        4 => random.near(vault_in),
        5 if kind == 3 => vault_out - random.up_to(vault_out.min(1000)),
        // The most that can arrive, and what a charge of all takes whole.
        6 if kind == 3 && charge_out.points > 0 => random.near(most_arriving(charge_out)),
        6 if kind == 2 && charge_in.points > 0 => random.near(charge_in.maximum),
        _ => {
            let held = if kind == 3 { vault_out } else { vault_in };
            random.up_to(held) >> random.below(30)
        }
    }
}

pub fn clock(random: &mut Random, state: &State) -> u64 {
    let (grid, mark, open_time) = (state.pool.grid, state.pool.head.mark, state.pool.open_time);
    let [entry_clock, ..] = entry_at(&state.ring, state.pool.head.index);
    let clock = match random.below(9) {
        0 => random.any(),
        1 => random.near(open_time),
        2 => random.near(u64::MAX),
        3 => random.near(mark.saturating_add(grid.spacing)),
        4 => random.near(entry_clock.saturating_add(grid.spacing)),
        5 => mark.saturating_add(random.sized()),
        _ => mark.saturating_add(grids::seconds(random, grid)),
    };
    // Mostly not before the open time.
    match random.below(8) {
        0 => clock,
        1 if open_time > 0 => clock.min(open_time - 1),
        _ => clock.max(open_time),
    }
}

fn liquidity(random: &mut Random, state: &State, kind: u64) -> Vec<u64> {
    let (lp, owned) = lp_and_owned(random, state, kind);
    let loose = if kind == 4 { u64::MAX } else { 0 };
    let with_limits = |first, second| match kind {
        4 => vec![lp, first, second],
        _ => vec![lp, owned, first, second],
    };
    if !random.chance(3) {
        return with_limits(loose, loose);
    }
    let [a0, a1] = if kind == 4 { sent(state, lp) } else { received(state, lp) };
    let (first, second) = (random.near(a0), random.near(a1));
    with_limits(if random.chance(2) { first } else { loose }, if random.chance(2) { second } else { loose })
}

/// What a deposit sends where it is accepted.
fn sent(state: &State, lp: u64) -> [u64; 2] {
    let receipt = model::run(state, &Call::Deposit { lp, maximums: [u64::MAX; 2] }).receipt;
    [receipt.sent(0), receipt.sent(1)]
}

/// What a withdrawal's owner receives, or would where too little LP is left.
fn received(state: &State, lp: u64) -> [u64; 2] {
    let pool = &state.pool;
    let nets = nets(pool).unwrap_or_default();
    let worth = model::answer(&Case { kind: 22, columns: vec![lp, pool.supply, nets[0], nets[1], 0] });
    [0, 1].map(|t| {
        let leaving = worth.values[t].min(nets[t]);
        leaving - charged(leaving, pool.charges[t])
    })
}

/// LP, and the owner's, who mostly has enough. On a closed pool the LP is often refused as well.
fn lp_and_owned(random: &mut Random, state: &State, kind: u64) -> (u64, u64) {
    let lp = lp_amount(random, state.pool.supply, kind);
    let closed = state.pool.status_bit(kind - 4);
    match random.below(3) {
        0 if closed => (0, random.any()),
        1 if closed => (lp, random.up_to(lp.saturating_sub(1))),
        _ => (lp, if random.chance(10) { random.near(lp) } else { u64::MAX }),
    }
}

fn lp_amount(random: &mut Random, supply: u64, kind: u64) -> u64 {
    match random.below(7) {
        0 => random.below(20),
        1 => random.any(),
        2 => random.near(supply),
        3 => random.near(u64::MAX - supply),
        // A withdrawal that leaves just the locked LP, or a few more or fewer.
        4 if kind == 5 => random.near(supply.saturating_sub(LOCKED_LP)),
        _ => random.up_to(supply) >> random.below(20),
    }
}
