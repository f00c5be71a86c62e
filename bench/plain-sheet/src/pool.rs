//! The pool and its calls but for the swaps.

use crate::ring::Ring;

pub const NOT_APPROVED: u64 = 1;
pub const SLIPPAGE: u64 = 2;
pub const INVALID_INPUT: u64 = 3;
pub const ZERO_TOKENS: u64 = 4;
pub const INVALID_VAULT: u64 = 5;
pub const EMPTY_SUPPLY: u64 = 6;
pub const INSUFFICIENT: u64 = 7;
pub const OVERFLOW: u64 = 8;
pub const INVALID_MODEL: u64 = 9;
pub const REQUIRE: u64 = 10;
pub const PANIC: u64 = 11;
pub const TOO_LESS: u64 = 13;
pub const LEFT_TOO_LESS: u64 = 15;

pub const MILLION: u64 = 1_000_000;
const LEAST_SUPPLY: u64 = 101;
const LOCKED_LP: u64 = 100;

/// The two amounts that a row shows, or the refusal's number.
pub type Amounts = Result<[u64; 2], u64>;

#[derive(Clone, Copy, Default)]
pub struct Rates {
    pub trade: u64,
    pub protocol: u64,
    pub fund: u64,
    pub creator: u64,
    pub share: u64,
}

#[derive(Clone, Default)]
pub struct Pool {
    pub vaults: [u64; 2],
    pub protocol: [u64; 2],
    pub fund: [u64; 2],
    pub creator: [u64; 2],
    pub supply: u64,
    pub status: u64,
    pub open_time: u64,
    pub model: u64,
    pub enabled: bool,
    pub rates: Rates,
    pub ring: Ring,
}

pub fn refuse_if(fails: bool, number: u64) -> Result<(), u64> {
    if fails {
        Err(number)
    } else {
        Ok(())
    }
}

impl Rates {
    pub fn check(&self) -> Result<(), u64> {
        self.check_limits()?;
        refuse_if(self.share > MILLION, INVALID_INPUT)
    }

    pub fn check_limits(&self) -> Result<(), u64> {
        let charged = u128::from(self.trade) + u128::from(self.creator);
        let parts = u128::from(self.protocol) + u128::from(self.fund);
        refuse_if(charged >= u128::from(MILLION) || parts > u128::from(MILLION), INVALID_INPUT)
    }
}

impl Pool {
    pub fn open(
        amounts: [u64; 2],
        model: u64,
        enabled: u64,
        open_time: u64,
        rates: Rates,
    ) -> Result<Pool, u64> {
        refuse_if(amounts.contains(&0), EMPTY_SUPPLY)?;
        refuse_if(model > 2, INVALID_MODEL)?;
        refuse_if(enabled > 1, INVALID_INPUT)?;
        rates.check()?;
        let supply = (u128::from(amounts[0]) * u128::from(amounts[1])).isqrt() as u64;
        refuse_if(supply < LEAST_SUPPLY, TOO_LESS)?;
        Ok(Pool {
            vaults: amounts,
            supply,
            open_time,
            model,
            enabled: enabled == 1,
            rates,
            ..Pool::default()
        })
    }

    pub fn nets(&self) -> Result<[u64; 2], u64> {
        let counters = |t: usize| self.protocol[t].checked_add(self.fund[t])?.checked_add(self.creator[t]);
        let counters = [counters(0).ok_or(OVERFLOW)?, counters(1).ok_or(OVERFLOW)?];
        let net = |t: usize| self.vaults[t].checked_sub(counters[t]).ok_or(INSUFFICIENT);
        Ok([net(0)?, net(1)?])
    }

    pub fn is_closed(&self, bit: u32) -> bool {
        self.status >> bit & 1 == 1
    }

    pub fn deposit(&mut self, lp: u64, maximums: [u64; 2]) -> Amounts {
        refuse_if(self.is_closed(0), NOT_APPROVED)?;
        refuse_if(lp == 0, REQUIRE)?;
        let amounts = self.tokens_for(lp, self.nets()?, true)?;
        refuse_if(amounts[0] > maximums[0] || amounts[1] > maximums[1], SLIPPAGE)?;
        let vault = |t: usize| self.vaults[t].checked_add(amounts[t]).ok_or(OVERFLOW);
        let vaults = [vault(0)?, vault(1)?];
        self.supply = self.supply.checked_add(lp).ok_or(PANIC)?;
        self.vaults = vaults;
        Ok(amounts)
    }

    pub fn withdraw(&mut self, lp: u64, owned: u64, minimums: [u64; 2]) -> Amounts {
        refuse_if(self.is_closed(1), NOT_APPROVED)?;
        refuse_if(lp == 0 || lp > owned, REQUIRE)?;
        let nets = self.nets()?;
        let whole = self.tokens_for(lp, nets, false)?;
        let amounts = [whole[0].min(nets[0]), whole[1].min(nets[1])];
        refuse_if(amounts[0] < minimums[0] || amounts[1] < minimums[1], SLIPPAGE)?;
        let supply = self.supply.checked_sub(lp).ok_or(PANIC)?;
        refuse_if(supply < LOCKED_LP, LEFT_TOO_LESS)?;
        self.supply = supply;
        self.vaults = [self.vaults[0] - amounts[0], self.vaults[1] - amounts[1]];
        Ok(amounts)
    }

    /// Rounded up, the 1 is added only where the quotient is not 0.
    fn tokens_for(&self, lp: u64, nets: [u64; 2], up: bool) -> Amounts {
        refuse_if(self.supply == 0, ZERO_TOKENS)?;
        let supply = u128::from(self.supply);
        let amounts = nets.map(|net| {
            let product = u128::from(lp) * u128::from(net);
            let quotient = product / supply;
            quotient + u128::from(up && quotient != 0 && product % supply != 0)
        });
        refuse_if(amounts.contains(&0), ZERO_TOKENS)?;
        let word = |amount: u128| u64::try_from(amount).map_err(|_| PANIC);
        Ok([word(amounts[0])?, word(amounts[1])?])
    }

    pub fn settle(&mut self) -> Amounts {
        refuse_if(self.rates.share > MILLION, INVALID_INPUT)?;
        let shared = self
            .creator
            .map(|fee| (u128::from(fee) * u128::from(self.rates.share) / u128::from(MILLION)) as u64);
        let counter = |t: usize| self.protocol[t].checked_add(shared[t]).ok_or(OVERFLOW);
        let protocol = [counter(0)?, counter(1)?];
        let paid = [self.creator[0] - shared[0], self.creator[1] - shared[1]];
        let vault = |t: usize| self.vaults[t].checked_sub(paid[t]).ok_or(INSUFFICIENT);
        self.vaults = [vault(0)?, vault(1)?];
        self.protocol = protocol;
        self.creator = [0, 0];
        Ok(paid)
    }

    pub fn set_status(&mut self, bit: u64, flag: u64) -> Amounts {
        refuse_if(bit > 2 || flag > 1, INVALID_INPUT)?;
        let mask = 1 << bit;
        self.status = if flag == 1 { self.status | mask } else { self.status & !mask };
        Ok([0, 0])
    }
}
