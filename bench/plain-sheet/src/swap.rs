//! The two swaps.

use crate::pool::*;

/// What a swap is reckoned from.
struct Terms {
    token_in: usize,
    nets: [u64; 2],
    fee_on_input: bool,
    trade_rate: u64,
    creator_rate: u64,
}

struct Quote {
    paid_in: u64,
    paid_out: u64,
    trade_fee: u64,
    creator_fee: u64,
}

fn rounded_up(amount: u128, rate: u64) -> u128 {
    (amount * u128::from(rate)).div_ceil(MILLION.into())
}

/// The amount of which this is left after a fee; far past u64 it is 11.
fn before_fee(amount: u128, rate: u64) -> Result<u128, u64> {
    if rate == 0 {
        return Ok(amount);
    }
    let product = amount.checked_mul(MILLION.into()).ok_or(PANIC)?;
    Ok(product.div_ceil((MILLION - rate).into()))
}

impl Pool {
    pub fn swap_by_input(&mut self, direction: u64, amount: u64, minimum: u64, clock: u64) -> Amounts {
        let terms = self.terms(direction, amount, clock)?;
        let quote = terms.by_input(amount);
        refuse_if(quote.paid_out == 0, REQUIRE)?;
        refuse_if(quote.paid_out < minimum, SLIPPAGE)?;
        self.book(&terms, &quote, clock)
    }

    pub fn swap_by_output(&mut self, direction: u64, amount: u64, maximum: u64, clock: u64) -> Amounts {
        let terms = self.terms(direction, amount, clock)?;
        let quote = terms.by_output(amount)?;
        refuse_if(quote.paid_in > maximum, SLIPPAGE)?;
        self.book(&terms, &quote, clock)
    }

    /// The tests that both swaps begin with.
    fn terms(&self, direction: u64, amount: u64, clock: u64) -> Result<Terms, u64> {
        self.rates.check_limits()?;
        refuse_if(self.is_closed(2) || clock < self.open_time, NOT_APPROVED)?;
        refuse_if(amount == 0, REQUIRE)?;
        refuse_if(direction > 1, INVALID_VAULT)?;
        let nets = self.nets()?;
        refuse_if(nets.contains(&0), PANIC)?;
        refuse_if(self.model > 2, INVALID_MODEL)?;
        Ok(Terms {
            token_in: direction as usize,
            nets,
            fee_on_input: self.model == 0 || self.model == direction + 1,
            trade_rate: self.rates.trade,
            creator_rate: if self.enabled { self.rates.creator } else { 0 },
        })
    }

    /// Everything is reckoned first; the ring decides last, and then all is stored.
    fn book(&mut self, terms: &Terms, quote: &Quote, clock: u64) -> Amounts {
        let (token_in, token_out) = (terms.token_in, 1 - terms.token_in);
        let fee_token = if terms.fee_on_input { token_in } else { token_out };
        let part = |rate: u64| (u128::from(quote.trade_fee) * u128::from(rate) / u128::from(MILLION)) as u64;
        let protocol = self.protocol[token_in].checked_add(part(self.rates.protocol)).ok_or(PANIC)?;
        let fund = self.fund[token_in].checked_add(part(self.rates.fund)).ok_or(PANIC)?;
        let creator = self.creator[fee_token].checked_add(quote.creator_fee).ok_or(PANIC)?;
        let vault = self.vaults[token_in].checked_add(quote.paid_in).ok_or(OVERFLOW)?;
        self.ring.update(clock, terms.nets)?;
        self.protocol[token_in] = protocol;
        self.fund[token_in] = fund;
        self.creator[fee_token] = creator;
        self.vaults[token_in] = vault;
        self.vaults[token_out] -= quote.paid_out;
        Ok([quote.paid_in, quote.paid_out])
    }
}

impl Terms {
    fn net_in(&self) -> u128 {
        self.nets[self.token_in].into()
    }

    fn net_out(&self) -> u128 {
        self.nets[1 - self.token_in].into()
    }

    /// The creator's part of a total fee on the input; nothing of rates of 0.
    fn split(&self, total: u64) -> u64 {
        let rates = u128::from(self.trade_rate) + u128::from(self.creator_rate);
        if rates == 0 {
            return 0;
        }
        (u128::from(total) * u128::from(self.creator_rate) / rates) as u64
    }

    fn curve_output(&self, less_fees: u128) -> u128 {
        less_fees * self.net_out() / (self.net_in() + less_fees)
    }

    fn by_input(&self, paid_in: u64) -> Quote {
        if self.fee_on_input {
            let total = rounded_up(paid_in.into(), self.trade_rate + self.creator_rate) as u64;
            let creator_fee = self.split(total);
            let paid_out = self.curve_output((paid_in - total).into()) as u64;
            Quote { paid_in, paid_out, trade_fee: total - creator_fee, creator_fee }
        } else {
            let trade_fee = rounded_up(paid_in.into(), self.trade_rate) as u64;
            let output = self.curve_output((paid_in - trade_fee).into());
            let creator_fee = rounded_up(output, self.creator_rate) as u64;
            Quote { paid_in, paid_out: output as u64 - creator_fee, trade_fee, creator_fee }
        }
    }

    /// What the output costs before fees on the input.
    fn curve_input(&self, output: u128) -> Result<u128, u64> {
        refuse_if(output >= self.net_out(), PANIC)?;
        Ok((self.net_in() * output).div_ceil(self.net_out() - output))
    }

    fn by_output(&self, paid_out: u64) -> Result<Quote, u64> {
        let word = |amount: u128| u64::try_from(amount).map_err(|_| PANIC);
        if self.fee_on_input {
            let input = self.curve_input(paid_out.into())?;
            let paid_in = word(before_fee(input, self.trade_rate + self.creator_rate)?)?;
            let total = paid_in - input as u64;
            let creator_fee = self.split(total);
            Ok(Quote { paid_in, paid_out, trade_fee: total - creator_fee, creator_fee })
        } else {
            let output = before_fee(paid_out.into(), self.creator_rate)?;
            let input = self.curve_input(output)?;
            let paid_in = word(before_fee(input, self.trade_rate)?)?;
            let (trade_fee, creator_fee) = (paid_in - input as u64, output as u64 - paid_out);
            Ok(Quote { paid_in, paid_out, trade_fee, creator_fee })
        }
    }
}
