//! Status.

use super::Accepted;
use crate::refusal::{refuse_if, INVALID_INPUT};
use record::{Receipt, State};

pub fn set(state: &State, bit: u64, flag: u64) -> Accepted {
    refuse_if(bit > 2 || flag > 1, INVALID_INPUT)?;
    let mut after = state.clone();
    let mask = 1 << bit;
    after.pool.status = if flag == 1 { state.pool.status | mask } else { state.pool.status & !mask };
    Ok((after, Receipt { kind: 7, ..Receipt::default() }))
}
