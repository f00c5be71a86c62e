//! Deposit and withdrawal, with document 02 (b): closed comes before the amount; (c): limits look at
//! what is sent and received, all else at what reaches or leaves the vaults; and (e): 100 LP stay.

use super::{charges_on, nets, sent, sum_or, Accepted};
use crate::curve::tokens_for;
use crate::refusal::*;
use crate::whole::{whole, ZERO};
use record::{Pool, Receipt, State};

/// Locked at the start; the supply counts them too.
pub(crate) const LOCK_LP_AMOUNT: u64 = 100;

pub fn deposit(state: &State, lp: u64, maximums: [u64; 2]) -> Accepted {
    let pool = &state.pool;
    refuse_if(pool.status_bit(0), NOT_APPROVED)?;
    refuse_if(lp == 0, UNNAMED_REQUIRE)?;
    let amounts = amounts(pool, nets(pool)?, lp, true)?;
    let sent = [sent(amounts[0], pool.charges[0])?, sent(amounts[1], pool.charges[1])?];
    refuse_if((0..2).any(|t| sent[t] > maximums[t]), EXCEEDED_SLIPPAGE)?;
    let mut after = state.clone();
    for t in 0..2 {
        after.pool.vaults[t] = sum_or(pool.vaults[t], amounts[t], MATH_OVERFLOW)?;
    }
    after.pool.supply = sum_or(pool.supply, lp, PANIC)?;
    let charges = [0, 1].map(|t| sent[t] - amounts[t]);
    Ok((after, Receipt { kind: 4, paid_in: amounts, lp, charges, ..Receipt::default() }))
}

pub fn withdraw(state: &State, lp: u64, owned: u64, minimums: [u64; 2]) -> Accepted {
    let pool = &state.pool;
    refuse_if(pool.status_bit(1), NOT_APPROVED)?;
    refuse_if(lp == 0 || lp > owned, UNNAMED_REQUIRE)?;
    let nets = nets(pool)?;
    let uncapped = amounts(pool, nets, lp, false)?;
    let amounts = [uncapped[0].min(nets[0]), uncapped[1].min(nets[1])];
    let charges = charges_on(pool, amounts);
    refuse_if((0..2).any(|t| amounts[t] - charges[t] < minimums[t]), EXCEEDED_SLIPPAGE)?;
    refuse_if(lp > pool.supply, PANIC)?;
    let supply = pool.supply - lp;
    refuse_if(supply < LOCK_LP_AMOUNT, LEFT_LP_AMOUNT_TOO_LESS)?;
    let mut after = state.clone();
    for t in 0..2 {
        after.pool.vaults[t] -= amounts[t];
    }
    after.pool.supply = supply;
    Ok((after, Receipt { kind: 5, paid_out: amounts, lp, charges, ..Receipt::default() }))
}

fn amounts(pool: &Pool, nets: [u64; 2], lp: u64, up: bool) -> Result<[u64; 2], u64> {
    refuse_if(pool.supply == 0, ZERO_TRADING_TOKENS)?;
    let amounts = nets.map(|net| tokens_for(whole(lp), whole(pool.supply), whole(net), up));
    refuse_if(amounts.contains(&ZERO), ZERO_TRADING_TOKENS)?;
    Ok([amounts[0].as_u64().ok_or(PANIC)?, amounts[1].as_u64().ok_or(PANIC)?])
}
