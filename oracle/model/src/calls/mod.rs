//! Document 01, 'The calls', with document 02 (a), (b), (c), (e) and (f): each is its steps in order,
//! and the first that fails gives the number.

pub(crate) mod liquidity;
mod opening;
mod settlement;
mod status;
pub(crate) mod swap;

use crate::charge::{charge_on, least_sent};
use crate::fees::MILLION;
use crate::refusal::{
    refuse_if, INSUFFICIENT_VAULT, INVALID_INPUT, MATH_OVERFLOW, TRANSFER_FEE_CALCULATE_NOT_MATCH,
};
use crate::whole::whole;
use record::{Call, Charge, Pool, Rates, Receipt, State};

/// The state after an accepted call and its receipt, or the number of the step that failed.
pub type Accepted = Result<(State, Receipt), u64>;

pub fn accepted(state: &State, call: &Call) -> Accepted {
    match call {
        Call::Opening(opening) => opening::open(opening),
        Call::SwapByInput(swap) => swap::by_input(state, swap),
        Call::SwapByOutput(swap) => swap::by_output(state, swap),
        Call::Deposit { lp, maximums } => liquidity::deposit(state, *lp, *maximums),
        Call::Withdrawal { lp, owned, minimums } => liquidity::withdraw(state, *lp, *owned, *minimums),
        Call::Settlement { share } => settlement::settle(state, *share),
        Call::Status { bit, flag } => status::set(state, *bit, *flag),
    }
}

/// The vaults less their counters: the sums of both tokens first, then the vaults.
pub fn nets(pool: &Pool) -> Result<[u64; 2], u64> {
    let sum = |t: usize| whole(pool.protocol[t]) + whole(pool.fund[t]) + whole(pool.creator[t]);
    let counters = [sum(0).as_u64().ok_or(MATH_OVERFLOW)?, sum(1).as_u64().ok_or(MATH_OVERFLOW)?];
    refuse_if((0..2).any(|t| counters[t] > pool.vaults[t]), INSUFFICIENT_VAULT)?;
    Ok([pool.vaults[0] - counters[0], pool.vaults[1] - counters[1]])
}

/// Opening's limits on the rates, which the swaps test too; summed without wrap.
pub fn rate_limits(rates: &Rates) -> Result<(), u64> {
    let charged = whole(rates.trade) + whole(rates.creator);
    let parts = whole(rates.protocol) + whole(rates.fund);
    refuse_if(charged >= whole(MILLION) || parts > whole(MILLION), INVALID_INPUT)
}

/// The sum as u64, or this number.
fn sum_or(left: u64, right: u64, number: u64) -> Result<u64, u64> {
    (whole(left) + whole(right)).as_u64().ok_or(number)
}

/// What has to be sent so that this arrives, or 14.
pub(crate) fn sent(wanted: u64, charge: Charge) -> Result<u64, u64> {
    least_sent(whole(wanted), charge).as_u64().ok_or(TRANSFER_FEE_CALCULATE_NOT_MATCH)
}

/// The charge on an amount that is sent.
pub fn charged(amount: u64, charge: Charge) -> u64 {
    charge_on(whole(amount), charge).as_u64().expect("a charge is at most its amount")
}

/// The charge on each token's amount that leaves the vaults.
fn charges_on(pool: &Pool, amounts: [u64; 2]) -> [u64; 2] {
    [0, 1].map(|t| charged(amounts[t], pool.charges[t]))
}
