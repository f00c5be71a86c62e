//! Settlement. Document 02 (c): what the creators' transfers are charged stands in the receipt.

use super::{charges_on, sum_or, Accepted};
use crate::fees::{part_rounded_down, MILLION};
use crate::refusal::{refuse_if, INSUFFICIENT_VAULT, INVALID_INPUT, MATH_OVERFLOW};
use crate::whole::whole;
use record::{Receipt, State};

pub fn settle(state: &State, share: u64) -> Accepted {
    let pool = &state.pool;
    refuse_if(share > MILLION, INVALID_INPUT)?;
    let shared = pool.creator.map(|counter| {
        let part = part_rounded_down(whole(counter), share);
        part.as_u64().expect("a part at up to the whole rate is at most the whole")
    });
    let paid_out = [0, 1].map(|t| pool.creator[t] - shared[t]);
    let mut after = state.clone();
    for t in 0..2 {
        after.pool.protocol[t] = sum_or(pool.protocol[t], shared[t], MATH_OVERFLOW)?;
    }
    for t in 0..2 {
        refuse_if(paid_out[t] > pool.vaults[t], INSUFFICIENT_VAULT)?;
        after.pool.vaults[t] -= paid_out[t];
    }
    after.pool.creator = [0, 0];
    let charges = charges_on(pool, paid_out);
    Ok((after, Receipt { kind: 6, paid_out, shared, charges, ..Receipt::default() }))
}
