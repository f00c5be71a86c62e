//! Both give the same for any numbers, divisors of 0 and quotients past 64 bits included.

use beside::random::Random;
use leaves::{port, with_u128};

#[test]
fn any_numbers() {
    let mut random = Random::new(7);
    for _ in 0..1_000_000 {
        let [a, b, c, d] = [random.any(), random.any(), random.any(), random.any()];
        assert_eq!(port::leaf_mul_high(a, b), with_u128::mul_high(a, b), "{a} {b}");
        assert_eq!(port::leaf_mul_div_floor(a, b, c), with_u128::mul_div_floor(a, b, c), "{a} {b} {c}");
        assert_eq!(port::leaf_mul_div_ceil(a, b, c), with_u128::mul_div_ceil(a, b, c), "{a} {b} {c}");
        let curve = with_u128::mul_div_sum(a, b, c, d);
        assert_eq!(port::leaf_mul_div_sum(a, b, c, d), curve, "{a} {b} {c} {d}");
        assert_eq!(port::leaf_price_low(a, b), with_u128::price_low(a, b), "{a} {b}");
        assert_eq!(port::leaf_sum_high(a, b, c, d), with_u128::sum_high(a, b, c, d), "{a} {b} {c} {d}");
        assert_eq!(port::leaf_isqrt(a, b), with_u128::isqrt(a, b), "{a} {b}");
    }
}
