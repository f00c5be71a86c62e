//! Where the original no longer decides, by document 02: runs beside it leave such a case to the
//! model, which the port is still held against.

use crate::call::Call;
use crate::case::Case;
use crate::pool::Grid;
use std::fmt;

/// Why a case is left to the model.
#[derive(Clone, Copy, Debug, PartialEq, Eq, PartialOrd, Ord)]
pub enum Left {
    /// 02 (a): a swap, or the split alone, at a rate sum of 0, whichever side the fee is on.
    RateSumOfZero,
    /// 02 (b): on a closed pool a swap by output of 0 within the rate limits, a deposit of LP 0, a
    /// withdrawal of LP 0 or above the owner's.
    AmountOnClosedPool,
    /// 02 (c): a call on a pool with points above 0 of either token, whatever the maximums, or a
    /// function of the charge alone at such points.
    Charge,
    /// 02 (e): a withdrawal that leaves fewer than 100 LP and that the original accepts, or would, had it such
    /// a status, fee model or index.
    LockedLp,
    /// 02 (f): a swap, or the ring alone, at another spacing than 15 or another length than 100.
    OtherGrid,
    /// 02 (g): a call with a register, or a balance read from one.
    Register,
}

/// The least that a withdrawal leaves, by 02 (e).
pub const LOCKED_LP: u64 = 100;

impl fmt::Display for Left {
    fn fmt(&self, out: &mut fmt::Formatter) -> fmt::Result {
        out.write_str(match self {
            Left::RateSumOfZero => "rate sum 0, 02 (a)",
            Left::AmountOnClosedPool => "refused amount on a closed pool, 02 (b)",
            Left::Charge => "points above 0, 02 (c)",
            Left::LockedLp => "fewer than 100 LP left, 02 (e)",
            Left::OtherGrid => "spacing not 15 or length not 100, 02 (f)",
            Left::Register => "register of holders, 02 (g)",
        })
    }
}

impl Left {
    /// The number that document 02 gives to all these cases, where it gives one.
    pub fn number(self) -> Option<u64> {
        match self {
            Left::RateSumOfZero | Left::Charge | Left::OtherGrid | Left::Register => None,
            Left::AmountOnClosedPool => Some(1),
            Left::LockedLp => Some(15),
        }
    }
}

impl Case {
    pub fn original_decides(&self) -> bool {
        self.left_to_model().is_none()
    }

    /// The first reason that holds; none where the original decides.
    pub fn left_to_model(&self) -> Option<Left> {
        let reasons = [
            (Left::Register, self.form().takes_list()),
            (Left::RateSumOfZero, self.rate_sum_is_0()),
            (Left::AmountOnClosedPool, self.is_refused_amount_on_closed_pool()),
            // An opening has no original beside it, whatever it charges.
            (Left::Charge, self.kind != 1 && self.bears_charges()),
            (Left::LockedLp, self.leaves_less_than_locked()),
            (Left::OtherGrid, self.is_at_other_grid()),
        ];
        reasons.into_iter().find(|(_, holds)| *holds).map(|(left, _)| left)
    }

    /// Of the rates that count: a pool's creator rate does where it is enabled.
    fn rate_sum_is_0(&self) -> bool {
        match self.kind {
            2 | 3 => {
                let pool = self.pool();
                pool.rates.trade == 0 && (pool.rates.creator == 0 || !pool.enabled)
            }
            15 => self.columns[1] == 0 && self.columns[2] == 0,
            _ => false,
        }
    }

    /// The original looks at these amounts first. Past the rate limits nothing has changed: the rules
    /// give 3 before either test.
    fn is_refused_amount_on_closed_pool(&self) -> bool {
        let pool = self.pool();
        match self.call() {
            Some(Call::SwapByOutput(swap)) => {
                let closed = pool.status_bit(2) || swap.clock < pool.open_time;
                closed && swap.amount == 0 && !pool.rates.past_limits()
            }
            Some(Call::Deposit { lp, .. }) => pool.status_bit(0) && lp == 0,
            Some(Call::Withdrawal { lp, owned, .. }) => pool.status_bit(1) && (lp == 0 || lp > owned),
            _ => false,
        }
    }

    /// No other call looks at the ring, and an opening has no original beside it, whatever its grid.
    fn is_at_other_grid(&self) -> bool {
        matches!(self.kind, 2 | 3 | 30 | 36) && self.grid() != Some(Grid::DEFAULT)
    }

    /// Besides what is left, each test of the original passes: it is open, the owner has the LP, the
    /// vaults hold their counters, and of both tokens something is due that is not below the minimum. For
    /// LP within the supply no amount is above its net, so none is capped or past u64.
    fn leaves_less_than_locked(&self) -> bool {
        let Some(Call::Withdrawal { lp, owned, minimums }) = self.call() else {
            return false;
        };
        let pool = self.pool();
        let is_paid = |t: usize| {
            let amount = |net| u128::from(lp) * u128::from(net) / u128::from(pool.supply);
            pool.net(t).map(amount).is_some_and(|amount| amount > 0 && amount >= minimums[t].into())
        };
        let left = pool.supply.checked_sub(lp);
        left.is_some_and(|left| left < LOCKED_LP)
            && !pool.status_bit(1)
            && (1..=owned).contains(&lp)
            && is_paid(0)
            && is_paid(1)
    }
}
