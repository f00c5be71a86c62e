//! Whether a case shows the reason of a difference, reckoned from its columns alone.

use record::{Answer, Case, RECEIPT_LENGTH};

const MILLION: u128 = 1_000_000;

pub fn rates_past_limits(case: &Case) -> bool {
    case.pool().rates.past_limits()
}

/// A swap by output whose input passes u64 even before fees.
pub fn input_past_u64(case: &Case) -> bool {
    let pool = case.pool();
    let [direction, output, ..] = *case.arguments() else {
        return false;
    };
    let net = |t: usize| u128::from(pool.vaults[t] - pool.protocol[t] - pool.fund[t] - pool.creator[t]);
    let (net_in, net_out) = if direction == 0 { (net(0), net(1)) } else { (net(1), net(0)) };
    let fee_on_input = pool.fee_model == 0 || pool.fee_model == direction + 1;
    let charged = pool.enabled && !fee_on_input;
    let rate = if charged { u128::from(pool.rates.creator) } else { 0 };
    let output = (u128::from(output) * MILLION).div_ceil(MILLION - rate);
    output < net_out && net_in * output / (net_out - output) > u64::MAX.into()
}

pub fn rate_sum_past_u64(case: &Case) -> bool {
    case.columns[1].checked_add(case.columns[2]).is_none()
}

/// Where a settlement's answer holds what is paid out and the vaults.
const PAID_OUT: [usize; 2] = [5, 6];
const VAULTS: [usize; 2] = [RECEIPT_LENGTH, RECEIPT_LENGTH + 1];

/// The Rust owes the creators more than a vault holds.
pub fn vault_short(original: &Answer) -> bool {
    (0..2).any(|t| original.values[PAID_OUT[t]] > original.values[VAULTS[t]])
}

/// The answers are the same but for what the creators are owed, which has left the vaults.
pub fn only_paid_out(original: &Answer, document: &Answer) -> bool {
    let mut paid = original.values.clone();
    for t in 0..2 {
        paid[VAULTS[t]] = paid[VAULTS[t]].wrapping_sub(paid[PAID_OUT[t]]);
    }
    paid == document.values
}
