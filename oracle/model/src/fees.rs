//! Document 01, 'math.rs, then fees.rs', with document 02 (a): rates are in millionths.

use crate::whole::{divided_up, whole, Whole, ZERO};

pub const MILLION: u64 = 1_000_000;

/// Trading and creator fee: rounded up.
pub fn fee_rounded_up(amount: Whole, rate: u64) -> Whole {
    divided_up(amount * whole(rate), whole(MILLION))
}

/// Protocol, fund and shared part: rounded down.
pub fn part_rounded_down(amount: Whole, rate: u64) -> Whole {
    amount * whole(rate) / whole(MILLION)
}

/// The creator's part of a total fee, rounded down; 0 where both rates are 0.
pub fn split_creator_fee(total: Whole, trade: u64, creator: u64) -> Whole {
    let rates = whole(trade) + whole(creator);
    if rates == ZERO {
        ZERO
    } else {
        total * whole(creator) / rates
    }
}

/// The amount of which this is left after the fee; none where the fee takes everything.
pub fn calculate_pre_fee_amount(amount: Whole, rate: u64) -> Option<Whole> {
    match rate {
        0 => Some(amount),
        MILLION.. => None,
        _ => Some(divided_up(amount * whole(MILLION), whole(MILLION - rate))),
    }
}
