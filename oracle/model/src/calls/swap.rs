//! Swap by input and swap by output. By document 02 (a) no swap answers 4, by (b) closed comes before
//! the amount, by (c) curve, fees and vaults see what arrives and what leaves.

use super::{charged, nets, rate_limits, sent, sum_or, Accepted};
use crate::curve::{input_for, output_for};
use crate::fees::{calculate_pre_fee_amount, fee_rounded_up, part_rounded_down, split_creator_fee};
use crate::refusal::*;
use crate::ring;
use crate::whole::{whole, Whole};
use record::{Pool, Receipt, State, Swap};

/// What a swap is reckoned from once its first tests have passed.
struct Terms {
    token_in: usize,
    nets: [Whole; 2],
    fee_on_input: bool,
    trade_rate: u64,
    creator_rate: u64,
}

/// What a swap pays into and out of the vaults, and its fees. Protocol and fund fee are parts of the trade fee.
struct Quote {
    paid_in: Whole,
    paid_out: Whole,
    trade_fee: Whole,
    creator_fee: Whole,
}

pub fn by_input(state: &State, swap: &Swap) -> Accepted {
    let pool = &state.pool;
    // Of an unknown direction there is no token whose charge could be taken off.
    let charge_in =
        pool.charges.get(swap.direction as usize).map_or(0, |charge| charged(swap.amount, *charge));
    let arriving = swap.amount - charge_in;
    front_tests(pool, swap, arriving)?;
    let terms = terms(pool, swap)?;
    let quote = terms.quote_input(whole(arriving))?;
    let leaving = word(quote.paid_out);
    let charge_out = charged(leaving, pool.charges[terms.token_out()]);
    let received = leaving - charge_out;
    refuse_if(received == 0, UNNAMED_REQUIRE)?;
    refuse_if(received < swap.limit, EXCEEDED_SLIPPAGE)?;
    booked(state, 2, swap, &terms, &quote, [charge_in, charge_out])
}

pub fn by_output(state: &State, swap: &Swap) -> Accepted {
    let pool = &state.pool;
    front_tests(pool, swap, swap.amount)?;
    let leaving = sent(swap.amount, pool.charges[1 - swap.direction as usize])?;
    let terms = terms(pool, swap)?;
    let quote = terms.quote_output(whole(leaving))?;
    let arriving = word(quote.paid_in);
    let sent = sent(arriving, pool.charges[terms.token_in])?;
    refuse_if(sent > swap.limit, EXCEEDED_SLIPPAGE)?;
    booked(state, 3, swap, &terms, &quote, [sent - arriving, leaving - swap.amount])
}

/// The tests that both swaps begin with, down to the direction, of what arrives by input and of what
/// is wanted by output.
fn front_tests(pool: &Pool, swap: &Swap, asked: u64) -> Result<(), u64> {
    rate_limits(&pool.rates)?;
    refuse_if(pool.status_bit(2) || swap.clock < pool.open_time, NOT_APPROVED)?;
    refuse_if(asked == 0, UNNAMED_REQUIRE)?;
    refuse_if(swap.direction > 1, INVALID_VAULT)
}

/// The tests of both swaps that follow, down to the fee model.
fn terms(pool: &Pool, swap: &Swap) -> Result<Terms, u64> {
    let nets = nets(pool)?;
    refuse_if(nets.contains(&0), PANIC)?;
    refuse_if(pool.fee_model > 2, INVALID_FEE_MODEL)?;
    Ok(Terms {
        token_in: swap.direction as usize,
        nets: nets.map(whole),
        fee_on_input: fee_on_input(pool.fee_model, swap.direction),
        trade_rate: pool.rates.trade,
        creator_rate: if pool.enabled { pool.rates.creator } else { 0 },
    })
}

/// Model 0: always; 1: if token 0 goes in; 2: if token 1 goes in.
pub(crate) fn fee_on_input(model: u64, direction: u64) -> bool {
    model == 0 || model == direction + 1
}

impl Terms {
    fn token_out(&self) -> usize {
        1 - self.token_in
    }

    fn net_in(&self) -> Whole {
        self.nets[self.token_in]
    }

    fn net_out(&self) -> Whole {
        self.nets[self.token_out()]
    }

    /// Splits a total fee on the input into trade and creator fee.
    fn split(&self, total: Whole) -> (Whole, Whole) {
        let creator_fee = split_creator_fee(total, self.trade_rate, self.creator_rate);
        (total - creator_fee, creator_fee)
    }

    fn quote_input(&self, paid_in: Whole) -> Result<Quote, u64> {
        let curve = |charged: Whole| {
            let less_fees = paid_in - charged;
            output_for(less_fees, self.net_in(), self.net_out()).ok_or(PANIC)
        };
        if self.fee_on_input {
            let total = fee_rounded_up(paid_in, self.trade_rate + self.creator_rate);
            let (trade_fee, creator_fee) = self.split(total);
            Ok(Quote { paid_in, paid_out: curve(total)?, trade_fee, creator_fee })
        } else {
            let trade_fee = fee_rounded_up(paid_in, self.trade_rate);
            let output = curve(trade_fee)?;
            let creator_fee = fee_rounded_up(output, self.creator_rate);
            Ok(Quote { paid_in, paid_out: output - creator_fee, trade_fee, creator_fee })
        }
    }

    fn quote_output(&self, paid_out: Whole) -> Result<Quote, u64> {
        let curve = |output: Whole| input_for(output, self.net_in(), self.net_out()).ok_or(PANIC);
        let before_fee = |amount, rate| {
            calculate_pre_fee_amount(amount, rate).expect("within the limits no fee takes everything")
        };
        let quote = if self.fee_on_input {
            let input = curve(paid_out)?;
            let paid_in = before_fee(input, self.trade_rate + self.creator_rate);
            let (trade_fee, creator_fee) = self.split(paid_in - input);
            Quote { paid_in, paid_out, trade_fee, creator_fee }
        } else {
            let output = before_fee(paid_out, self.creator_rate);
            let input = curve(output)?;
            let paid_in = before_fee(input, self.trade_rate);
            Quote { paid_in, paid_out, trade_fee: paid_in - input, creator_fee: output - paid_out }
        };
        refuse_if(quote.paid_in.as_u64().is_none(), PANIC)?;
        Ok(quote)
    }
}

/// The last steps of both swaps: counters, vault, ring at the prices before the swap. The charges are
/// on the input and on the output.
fn booked(
    state: &State,
    kind: u64,
    swap: &Swap,
    terms: &Terms,
    quote: &Quote,
    charges: [u64; 2],
) -> Accepted {
    let mut after = state.clone();
    let mut receipt = receipt(kind, swap, terms, quote, &state.pool);
    let pool = &mut after.pool;
    let (token_in, token_out) = (terms.token_in, terms.token_out());
    [receipt.charges[token_in], receipt.charges[token_out]] = charges;
    let fee_token = receipt.creator_fee_token as usize;
    pool.protocol[token_in] = sum_or(pool.protocol[token_in], receipt.protocol_fee, PANIC)?;
    pool.fund[token_in] = sum_or(pool.fund[token_in], receipt.fund_fee, PANIC)?;
    pool.creator[fee_token] = sum_or(pool.creator[fee_token], receipt.creator_fee, PANIC)?;
    pool.vaults[token_in] = sum_or(pool.vaults[token_in], receipt.paid_in[token_in], MATH_OVERFLOW)?;
    pool.vaults[token_out] -= receipt.paid_out[token_out];
    ring::update(&mut pool.head, pool.grid, &mut after.ring, swap.clock, ring::prices(terms.nets))?;
    Ok((after, receipt))
}

fn receipt(kind: u64, swap: &Swap, terms: &Terms, quote: &Quote, pool: &Pool) -> Receipt {
    let (token_in, token_out) = (terms.token_in, terms.token_out());
    let mut receipt = Receipt {
        kind,
        direction: swap.direction,
        clock: swap.clock,
        trade_fee: word(quote.trade_fee),
        protocol_fee: word(part_rounded_down(quote.trade_fee, pool.rates.protocol)),
        fund_fee: word(part_rounded_down(quote.trade_fee, pool.rates.fund)),
        creator_fee: word(quote.creator_fee),
        creator_fee_token: if terms.fee_on_input { token_in } else { token_out } as u64,
        ..Receipt::default()
    };
    receipt.paid_in[token_in] = word(quote.paid_in);
    receipt.paid_out[token_out] = word(quote.paid_out);
    receipt
}

fn word(amount: Whole) -> u64 {
    amount.as_u64().expect("each amount was tested or is below one that was")
}
