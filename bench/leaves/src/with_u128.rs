//! The same with u128.

/// The high half of a product.
pub extern "C" fn mul_high(a: u64, b: u64) -> u64 {
    ((u128::from(a) * u128::from(b)) >> 64) as u64
}

/// A quotient; 0 where there is none of 64 bits.
pub extern "C" fn mul_div_floor(a: u64, b: u64, d: u64) -> u64 {
    let quotient = (u128::from(a) * u128::from(b)).checked_div(d.into());
    fitting(quotient)
}

/// As above, rounded up.
pub extern "C" fn mul_div_ceil(a: u64, b: u64, d: u64) -> u64 {
    let quotient = (d > 0).then(|| (u128::from(a) * u128::from(b)).div_ceil(d.into()));
    fitting(quotient)
}

/// By a sum, which can have 65 bits: the curve.
pub extern "C" fn mul_div_sum(a: u64, b: u64, x: u64, y: u64) -> u64 {
    let quotient = (u128::from(a) * u128::from(b)).checked_div(u128::from(x) + u128::from(y));
    fitting(quotient)
}

/// The low half of a price.
pub extern "C" fn price_low(a: u64, b: u64) -> u64 {
    (u128::from(a) << 32).checked_div(b.into()).unwrap_or(0) as u64
}

/// The high half of a sum modulo 2^128.
pub extern "C" fn sum_high(a_high: u64, a_low: u64, b_high: u64, b_low: u64) -> u64 {
    (joined(a_high, a_low).wrapping_add(joined(b_high, b_low)) >> 64) as u64
}

/// The whole root of 128 bits.
pub extern "C" fn isqrt(high: u64, low: u64) -> u64 {
    joined(high, low).isqrt() as u64
}

fn joined(high: u64, low: u64) -> u128 {
    u128::from(high) << 64 | u128::from(low)
}

fn fitting(quotient: Option<u128>) -> u64 {
    quotient.and_then(|quotient| quotient.try_into().ok()).unwrap_or(0)
}
