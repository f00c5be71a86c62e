//! Opening. Its amounts are those that arrived, so it bears no charge.

use super::{rate_limits, Accepted};
use crate::fees::MILLION;
use crate::refusal::{refuse_if, EMPTY_SUPPLY, INIT_LP_AMOUNT_TOO_LESS, INVALID_FEE_MODEL, INVALID_INPUT};
use crate::whole::{whole, whole_root};
use record::{Opening, Pool, Receipt};
use std::ops::RangeInclusive;

const LEAST_SUPPLY: u64 = 101;
/// Of 10,000.
const MOST_POINTS: u64 = 9999;
/// Document 02 (f): seconds from one entry of the price ring to the next, and entries.
const SPACINGS: RangeInclusive<u64> = 1..=3600;
const LENGTHS: RangeInclusive<u64> = 2..=100;

pub fn open(opening: &Opening) -> Accepted {
    let [amount_0, amount_1] = opening.amounts;
    refuse_if(amount_0 == 0 || amount_1 == 0, EMPTY_SUPPLY)?;
    refuse_if(opening.fee_model > 2, INVALID_FEE_MODEL)?;
    refuse_if(opening.enabled > 1, INVALID_INPUT)?;
    rate_limits(&opening.rates)?;
    refuse_if(opening.rates.share > MILLION, INVALID_INPUT)?;
    refuse_if(opening.charges.iter().any(|charge| charge.points > MOST_POINTS), INVALID_INPUT)?;
    refuse_if(!SPACINGS.contains(&opening.grid.spacing), INVALID_INPUT)?;
    refuse_if(!LENGTHS.contains(&opening.grid.length), INVALID_INPUT)?;
    let root = whole_root(whole(amount_0) * whole(amount_1));
    let supply = root.as_u64().expect("the root of a product of two u64 is a u64");
    refuse_if(supply < LEAST_SUPPLY, INIT_LP_AMOUNT_TOO_LESS)?;
    let mut state = crate::empty();
    state.pool = Pool {
        vaults: opening.amounts,
        supply,
        open_time: opening.open_time,
        fee_model: opening.fee_model,
        enabled: opening.enabled == 1,
        rates: opening.rates,
        charges: opening.charges,
        grid: opening.grid,
        ..Pool::default()
    };
    let receipt = Receipt { kind: 1, paid_in: opening.amounts, lp: supply, ..Receipt::default() };
    Ok((state, receipt))
}
