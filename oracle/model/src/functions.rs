//! Each function alone, on u64 amounts and rates: none answers 4; a result past 2^64 - 1
//! answers 8 for a fee and 11 for the curve; where no u64 can be sent that leaves an amount, 14.

use crate::calls;
use crate::curve::{input_for, lp_divided, output_for, tokens_for};
use crate::fees::{calculate_pre_fee_amount, fee_rounded_up, part_rounded_down, split_creator_fee, MILLION};
use crate::refusal::*;
use crate::ring;
use crate::whole::{divided_up, from_halves, whole, Whole, ZERO};
use record::{filled_ring, Answer, Case, Charge, Pool, RingAlone, RING_LENT};

type Values = Result<Vec<u64>, u64>;

pub fn answer(case: &Case) -> Answer {
    let form = case.form();
    match values(case.kind, &case.columns) {
        Ok(values) => Answer { number: 0, values },
        Err(number) => match case.kind {
            // What is lent to these comes back as it was.
            30 | 36 => Answer { number, values: case.columns[..RING_LENT].to_vec() },
            33 => Answer { number, values: case.columns[..6].to_vec() },
            _ => Answer::refused(number, form.values.len()),
        },
    }
}

fn values(kind: u64, words: &[u64]) -> Values {
    match kind {
        10..=17 => fee(kind, words),
        18 | 19 => charge(kind, words),
        20..=24 => curve(kind, words),
        30 => ring_update(words, [from_halves(words[11], words[12]), from_halves(words[13], words[14])]),
        31 => calls::nets(&vaults(words)).map(Vec::from),
        32 => prices(words),
        33 => booking(words),
        34 => {
            refuse_if(words[1] > 1, INVALID_VAULT)?;
            refuse_if(words[0] > 2, INVALID_FEE_MODEL)?;
            Ok(vec![calls::swap::fee_on_input(words[0], words[1]).into()])
        }
        35 => refuse_if(words.contains(&0), EMPTY_SUPPLY).map(|()| vec![]),
        36 => {
            refuse_if(words[11..].contains(&0), PANIC)?;
            ring_update(words, ring::prices([whole(words[11]), whole(words[12])]))
        }
        _ => unreachable!("every kind has its form"),
    }
}

fn word(result: Whole, past: u64) -> Result<u64, u64> {
    result.as_u64().ok_or(past)
}

fn fee(kind: u64, words: &[u64]) -> Values {
    let amount = whole(words[0]);
    let rate = words[1];
    let result = match kind {
        10 | 13 => Some(fee_rounded_up(amount, rate)),
        11 | 12 | 14 => Some(part_rounded_down(amount, rate)),
        15 => {
            word(whole(rate) + whole(words[2]), MATH_OVERFLOW)?;
            Some(split_creator_fee(amount, rate, words[2]))
        }
        16 => calculate_pre_fee_amount(amount, rate),
        _ => {
            refuse_if(rate > MILLION, INVALID_INPUT)?;
            let shared = part_rounded_down(amount, rate);
            return Ok(vec![word(amount - shared, MATH_OVERFLOW)?, word(shared, MATH_OVERFLOW)?]);
        }
    };
    Ok(vec![word(result.ok_or(ZERO_TRADING_TOKENS)?, MATH_OVERFLOW)?])
}

/// The charge on an amount that is sent, or on the least of which an amount arrives.
fn charge(kind: u64, words: &[u64]) -> Values {
    let [amount, points, maximum] = *words else {
        unreachable!("the form has three words");
    };
    let charge = Charge { points, maximum };
    let sent = if kind == 18 { amount } else { calls::sent(amount, charge)? };
    Ok(vec![calls::charged(sent, charge)])
}

fn curve(kind: u64, words: &[u64]) -> Values {
    if kind == 23 {
        return ceil_div(words);
    }
    let [first, second, third] = [words[0], words[1], words[2]].map(whole);
    match kind {
        20 => Ok(vec![word(output_for(first, second, third).ok_or(PANIC)?, PANIC)?]),
        21 => Ok(vec![word(input_for(first, second, third).ok_or(PANIC)?, PANIC)?]),
        24 => division(first, second, third),
        _ => {
            refuse_if(second == ZERO, ZERO_TRADING_TOKENS)?;
            let tokens = |net| word(tokens_for(first, second, net, words[4] == 1), PANIC);
            Ok(vec![tokens(third)?, tokens(whole(words[3]))?])
        }
    }
}

/// A quotient of up to 128 bits; a remainder is below its supply, so that it has 64.
fn division(lp: Whole, net: Whole, supply: Whole) -> Values {
    refuse_if(supply == ZERO, ZERO_TRADING_TOKENS)?;
    let (quotient, remainder) = lp_divided(lp, net, supply);
    let (high, low) = quotient.halves();
    Ok(vec![high, low, word(remainder, PANIC)?])
}

fn ceil_div(words: &[u64]) -> Values {
    let divisor = from_halves(words[2], words[3]);
    refuse_if(divisor == ZERO, ZERO_TRADING_TOKENS)?;
    let (high, low) = divided_up(from_halves(words[0], words[1]), divisor).halves();
    Ok(vec![high, low])
}

fn ring_update(words: &[u64], prices: [Whole; 2]) -> Values {
    let alone = RingAlone::from_words(words).expect("the form begins with the ring");
    let mut head = alone.head;
    let mut ring = filled_ring(head.index, alone.entry);
    ring::update(&mut head, alone.grid, &mut ring, alone.clock, prices)?;
    Ok(alone.words_after(head, &ring))
}

fn prices(words: &[u64]) -> Values {
    let nets = calls::nets(&vaults(words))?;
    refuse_if(nets.contains(&0), PANIC)?;
    Ok(ring::prices(nets.map(whole)).into_iter().flat_map(|price| <[u64; 2]>::from(price.halves())).collect())
}

/// The six counters after a swap's fees; a counter past u64 is 11.
fn booking(words: &[u64]) -> Values {
    let [.., model, direction, protocol_fee, fund_fee, creator_fee] = *words else {
        unreachable!("the form has eleven words");
    };
    refuse_if(direction > 1, INVALID_VAULT)?;
    refuse_if(model > 2, INVALID_FEE_MODEL)?;
    let token_in = direction as usize;
    let fee_token = if calls::swap::fee_on_input(model, direction) { token_in } else { 1 - token_in };
    let mut counters = words[..6].to_vec();
    for (counter, fee) in [(token_in, protocol_fee), (2 + token_in, fund_fee), (4 + fee_token, creator_fee)] {
        counters[counter] = word(whole(counters[counter]) + whole(fee), PANIC)?;
    }
    Ok(counters)
}

fn vaults(words: &[u64]) -> Pool {
    Pool {
        vaults: [words[0], words[1]],
        protocol: [words[2], words[3]],
        fund: [words[4], words[5]],
        creator: [words[6], words[7]],
        ..Pool::default()
    }
}
