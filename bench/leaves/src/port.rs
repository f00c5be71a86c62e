//! The port's, from libleaves.a; crates/leaves says what each gives.

// SAFETY: numbers in and a number out; each is proved for any numbers.
unsafe extern "C" {
    pub safe fn leaf_mul_high(a: u64, b: u64) -> u64;
    pub safe fn leaf_mul_div_floor(a: u64, b: u64, d: u64) -> u64;
    pub safe fn leaf_mul_div_ceil(a: u64, b: u64, d: u64) -> u64;
    pub safe fn leaf_mul_div_sum(a: u64, b: u64, x: u64, y: u64) -> u64;
    pub safe fn leaf_price_low(a: u64, b: u64) -> u64;
    pub safe fn leaf_sum_high(a_high: u64, a_low: u64, b_high: u64, b_low: u64) -> u64;
    pub safe fn leaf_isqrt(high: u64, low: u64) -> u64;
}
