//! Products of two 128-bit numbers, whole.

/// The product's high and low half, which compare as the products do.
pub fn product(left: u128, right: u128) -> (u128, u128) {
    let ([a, b], [c, d]) = (halves(left), halves(right));
    let (high, low) = (a * c, b * d);
    let (middle, carry) = (a * d).overflowing_add(b * c);
    let (low, carry_low) = low.overflowing_add(middle << 64);
    let high = high + (middle >> 64) + (u128::from(carry) << 64) + u128::from(carry_low);
    (high, low)
}

fn halves(number: u128) -> [u128; 2] {
    [number >> 64, number & u128::from(u64::MAX)]
}

#[cfg(test)]
mod tests {
    use super::product;

    #[test]
    fn products_within_128_bits_are_the_usual_ones() {
        for left in [0, 1, 3, u128::from(u64::MAX)] {
            for right in [0, 1, 7, u128::from(u64::MAX)] {
                assert_eq!(product(left, right), (0, left * right));
            }
        }
    }

    #[test]
    fn wide_products_divide_back() {
        let most = u128::MAX;
        // (2^128 - 1)^2 = 2^256 - 2^129 + 1
        assert_eq!(product(most, most), (most - 1, 1));
        assert_eq!(product(most, 1 << 64), ((1 << 64) - 1, most << 64));
        assert_eq!(product(1 << 127, 6), (3, 0));
    }
}
