//! The original's functions alone.

use crate::failure::{caught, Failure};
use crate::memory::{entry, halves, head, observation_state, pool_state, read_pool, wide};
use crate::{Cause, Change, Outcome};
use original::curve::{ConstantProductCurve, CurveCalculator, Fees, RoundDirection, TradeDirection};
use original::states::{creator_fee_share::split_creator_fee_shared_amount, PoolState};
use original::utils::CheckedCeilDiv;
use record::{filled_ring, only_newest_written, Answer, Case, Pool, RingAlone, RING_LENT};

pub fn answer(case: &Case) -> Outcome {
    let words = &case.columns;
    match case.kind {
        10..=17 => results(case, caught(|| Ok(fee(case.kind, words))).and_then(|result| result)),
        18 | 19 => Outcome::Absent("a charge: utils/token.rs is stood in for"),
        20..=24 => results(case, caught(|| Ok(curve(case.kind, words))).and_then(|result| result)),
        30 => ring_update(words, Ok((wide(words[11], words[12]), wide(words[13], words[14])))),
        36 => ring_update(words, caught(|| counters([0; 6], 0).token_price_x32(words[11], words[12]))),
        31 => results(case, nets(words)),
        32 => results(case, prices(words)),
        33 => booking(words),
        34 => fee_on_input(case),
        40.. => Outcome::Absent("a register of holders"),
        _ => results(case, caught(|| CurveCalculator::validate_supply(words[0], words[1])).map(|()| vec![])),
    }
}

type Results = Result<Vec<u128>, Failure>;

fn results(case: &Case, results: Results) -> Outcome {
    match results {
        Err(failure) => {
            let answer = Answer::refused(failure.number(), case.form().values.len());
            Outcome::Answered { answer, booked: vec![], cause: failure.cause() }
        }
        Ok(results) => {
            let words: Result<Vec<u64>, _> = results.iter().map(|result| u64::try_from(*result)).collect();
            match words {
                Ok(values) => accepted(values),
                Err(_) => Outcome::Wide(results),
            }
        }
    }
}

fn accepted(values: Vec<u64>) -> Outcome {
    Outcome::Answered { answer: Answer { number: 0, values }, booked: vec![], cause: Cause::None }
}

/// None is the error that the original's callers make of it.
fn some_or_none(result: Option<u128>) -> Results {
    let none = original::error::ErrorCode::ZeroTradingTokens;
    result.map(|result| vec![result]).ok_or(Failure::Error(none.into()))
}

fn fee(kind: u64, words: &[u64]) -> Results {
    let (amount, rate) = (u128::from(words[0]), words[1]);
    some_or_none(match kind {
        10 => Fees::trading_fee(amount, rate),
        11 => Fees::protocol_fee(amount, rate),
        12 => Fees::fund_fee(amount, rate),
        13 => Fees::creator_fee(amount, rate),
        14 => Fees::creator_fee_shared_amount(amount, rate),
        15 => Fees::split_creator_fee(amount, rate, words[2]),
        16 => Fees::calculate_pre_fee_amount(amount, rate),
        _ => {
            let parts = split_creator_fee_shared_amount(words[0], rate).map_err(Failure::Error)?;
            return Ok(vec![parts.0.into(), parts.1.into()]);
        }
    })
}

fn curve(kind: u64, words: &[u64]) -> Results {
    let [first, second, third] = [words[0], words[1], words[2]].map(u128::from);
    match kind {
        20 => Ok(vec![ConstantProductCurve::swap_base_input_without_fees(first, second, third)]),
        21 => Ok(vec![ConstantProductCurve::swap_base_output_without_fees(first, second, third)]),
        22 => {
            let round = if words[4] == 1 { RoundDirection::Ceiling } else { RoundDirection::Floor };
            let fourth = u128::from(words[3]);
            let tokens = CurveCalculator::lp_tokens_to_trading_tokens(first, second, third, fourth, round);
            let amounts = tokens.map(|tokens| vec![tokens.token_0_amount, tokens.token_1_amount]);
            amounts.map_or_else(|| some_or_none(None), Ok)
        }
        24 => division(first, second, third),
        _ => {
            let quotient = wide(words[0], words[1]).checked_ceil_div(wide(words[2], words[3]));
            some_or_none(quotient).map(|quotient| halves(quotient[0]).map(u128::from).to_vec())
        }
    }
}

/// The original's amount rounded down is the quotient, of 128 bits, and the remainder is what that leaves
/// of the product. Rounded up it is one more just where there is a remainder and the quotient is not 0.
fn division(lp: u128, net: u128, supply: u128) -> Results {
    let amount = |round| {
        let tokens = CurveCalculator::lp_tokens_to_trading_tokens(lp, supply, net, net, round);
        tokens.map(|tokens| tokens.token_0_amount)
    };
    let (Some(quotient), Some(up)) = (amount(RoundDirection::Floor), amount(RoundDirection::Ceiling)) else {
        return some_or_none(None);
    };
    let remainder = lp * net - quotient * supply;
    assert_eq!(up - quotient, u128::from(quotient > 0 && remainder > 0));
    let [high, low] = halves(quotient).map(u128::from);
    Ok(vec![high, low, remainder])
}

/// The ring at two prices, which are given or which the original makes of two nets. Its spacing is 15 and
/// its length 100, whatever the words say.
fn ring_update(words: &[u64], prices: Result<(u128, u128), Failure>) -> Outcome {
    let alone = RingAlone::from_words(words).expect("the form begins with the ring");
    let ring = filled_ring(alone.head.index, alone.entry);
    let mut state = match observation_state(&alone.head, &ring) {
        Ok(state) => state,
        Err(reason) => return Outcome::Absent(reason),
    };
    let result = prices.and_then(|(price_0, price_1)| caught(|| state.update(alone.clock, price_0, price_1)));
    let after = head(&state);
    let entries = state.observations.map(entry);
    assert!(only_newest_written(&ring, &entries, after.index));
    let values = alone.words_after(after, &entries);
    let columns = record::form(30).expect("the ring has its form").values;
    rolled_back(result, columns, &words[..RING_LENT], values)
}

fn nets(words: &[u64]) -> Results {
    let pool = counters(words[2..].try_into().expect("six counters follow the vaults"), 0);
    let (net_0, net_1) = caught(|| pool.vault_amount_without_fee(words[0], words[1]))?;
    Ok(vec![net_0.into(), net_1.into()])
}

fn prices(words: &[u64]) -> Results {
    let pool = counters(words[2..].try_into().expect("six counters follow the vaults"), 0);
    let (price_0, price_1) = caught(|| pool.token_price_x32(words[0], words[1]))?;
    Ok([price_0, price_1].into_iter().flat_map(halves).map(u128::from).collect())
}

/// The booking step with creator fees enabled.
fn booking(words: &[u64]) -> Outcome {
    let [.., model, direction, protocol_fee, fund_fee, creator_fee] = *words else {
        unreachable!("the form has eleven words");
    };
    let (Ok(model), Some(direction)) = (u8::try_from(model), trade_direction(direction)) else {
        return Outcome::Absent("such a direction or fee model");
    };
    let mut state = counters(words[..6].try_into().expect("the form begins with six counters"), model);
    let result = caught(|| state.update_fees(protocol_fee, fund_fee, creator_fee, direction));
    let mut pool = Pool::default();
    read_pool(&state, &mut pool);
    let values = [pool.protocol, pool.fund, pool.creator].concat();
    let columns = record::form(33).expect("the booking has its form").values;
    rolled_back(result, columns, &words[..6], values)
}

fn fee_on_input(case: &Case) -> Outcome {
    let (model, direction) = (u8::try_from(case.columns[0]), trade_direction(case.columns[1]));
    let (Ok(model), Some(direction)) = (model, direction) else {
        return Outcome::Absent("such a direction or fee model");
    };
    let pool = counters([0; 6], model);
    let on_input = caught(|| pool.is_creator_fee_on_input(direction));
    results(case, on_input.map(|on_input| vec![on_input.into()]))
}

/// What was lent comes back as it was where the step is refused.
fn rolled_back(result: Result<(), Failure>, columns: &[&str], before: &[u64], after: Vec<u64>) -> Outcome {
    let Err(failure) = result else {
        return accepted(after);
    };
    let changed = columns.iter().zip(before).zip(&after).filter(|((_, before), after)| before != after);
    let booked = changed.map(|((column, before), after)| Change {
        column: column.to_string(),
        before: *before,
        after: *after,
    });
    let booked = booked.collect();
    let answer = Answer { number: failure.number(), values: before.to_vec() };
    Outcome::Answered { answer, booked, cause: failure.cause() }
}

fn trade_direction(direction: u64) -> Option<TradeDirection> {
    match direction {
        0 => Some(TradeDirection::ZeroForOne),
        1 => Some(TradeDirection::OneForZero),
        _ => None,
    }
}

fn counters([p0, p1, f0, f1, c0, c1]: [u64; 6], model: u8) -> PoolState {
    let pool = Pool {
        protocol: [p0, p1],
        fund: [f0, f1],
        creator: [c0, c1],
        fee_model: model.into(),
        enabled: true,
        ..Pool::default()
    };
    pool_state(&pool).expect("a model of 8 bits and status 0 are not too wide")
}
