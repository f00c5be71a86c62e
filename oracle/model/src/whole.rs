//! Whole numbers. Nothing in document 01 passes 2^192; a result past 2^256 would end the
//! run rather than wrap.

use std::cmp::Ordering;
use std::ops::{Add, Div, Mul, Rem, Sub};

const LIMBS: usize = 8;

/// Digits of 32 bits, the lowest first.
#[derive(Clone, Copy, Debug, PartialEq, Eq)]
pub struct Whole([u32; LIMBS]);

pub const ZERO: Whole = Whole([0; LIMBS]);
pub const ONE: Whole = Whole([1, 0, 0, 0, 0, 0, 0, 0]);

pub fn whole(number: u64) -> Whole {
    from_halves(0, number)
}

pub fn from_halves(high: u64, low: u64) -> Whole {
    let mut digits = [0; LIMBS];
    digits[..4].copy_from_slice(&[low as u32, (low >> 32) as u32, high as u32, (high >> 32) as u32]);
    Whole(digits)
}

/// Two to this power.
pub fn two_to(power: usize) -> Whole {
    let mut digits = [0; LIMBS];
    digits[power / 32] = 1 << (power % 32);
    Whole(digits)
}

/// The quotient rounded up; the divisor is not 0.
pub fn divided_up(number: Whole, divisor: Whole) -> Whole {
    let (quotient, rest) = number.divided(divisor);
    if rest == ZERO {
        quotient
    } else {
        quotient + ONE
    }
}

/// The greatest number whose square is at most this one.
pub fn whole_root(number: Whole) -> Whole {
    let mut root = ZERO;
    for power in (0..=number.bits() / 2).rev() {
        let longer = root + two_to(power);
        if longer * longer <= number {
            root = longer;
        }
    }
    root
}

impl Whole {
    /// None past 2^64 - 1.
    pub fn as_u64(self) -> Option<u64> {
        (self < two_to(64)).then(|| self.halves().1)
    }

    /// The high and low half of the number modulo 2^128.
    pub fn halves(self) -> (u64, u64) {
        let half = |at: usize| u64::from(self.0[at]) | u64::from(self.0[at + 1]) << 32;
        (half(2), half(0))
    }

    fn bits(self) -> usize {
        let used = (0..LIMBS).rev().find(|at| self.0[*at] != 0);
        used.map_or(0, |at| 32 * at + 32 - self.0[at].leading_zeros() as usize)
    }

    fn bit(self, at: usize) -> u32 {
        self.0[at / 32] >> (at % 32) & 1
    }

    /// Quotient and rest, bit by bit as on paper; the divisor is not 0.
    fn divided(self, divisor: Whole) -> (Whole, Whole) {
        assert!(divisor != ZERO, "a divisor is tested before it divides");
        if let Some(digit) = divisor.as_u64().and_then(|word| u32::try_from(word).ok()) {
            return self.divided_by_digit(digit);
        }
        let (mut quotient, mut rest) = (ZERO, ZERO);
        for at in (0..self.bits()).rev() {
            rest = rest.doubled_plus(self.bit(at));
            if rest >= divisor {
                rest = rest - divisor;
                quotient.0[at / 32] |= 1 << (at % 32);
            }
        }
        (quotient, rest)
    }

    fn divided_by_digit(self, digit: u32) -> (Whole, Whole) {
        let (mut quotient, mut rest) = (ZERO, 0u64);
        for at in (0..LIMBS).rev() {
            let part = rest << 32 | u64::from(self.0[at]);
            quotient.0[at] = (part / u64::from(digit)) as u32;
            rest = part % u64::from(digit);
        }
        (quotient, whole(rest))
    }

    fn doubled_plus(self, bit: u32) -> Whole {
        let mut digits = [0; LIMBS];
        let mut carry = bit;
        for at in 0..LIMBS {
            digits[at] = self.0[at] << 1 | carry;
            carry = self.0[at] >> 31;
        }
        assert!(carry == 0, "a number passes 2^256");
        Whole(digits)
    }
}

impl Ord for Whole {
    fn cmp(&self, other: &Whole) -> Ordering {
        self.0.iter().rev().cmp(other.0.iter().rev())
    }
}

impl PartialOrd for Whole {
    fn partial_cmp(&self, other: &Whole) -> Option<Ordering> {
        Some(self.cmp(other))
    }
}

impl Add for Whole {
    type Output = Whole;
    fn add(self, other: Whole) -> Whole {
        let mut digits = [0; LIMBS];
        let mut carry = 0u64;
        for at in 0..LIMBS {
            let sum = u64::from(self.0[at]) + u64::from(other.0[at]) + carry;
            digits[at] = sum as u32;
            carry = sum >> 32;
        }
        assert!(carry == 0, "a number passes 2^256");
        Whole(digits)
    }
}

impl Sub for Whole {
    type Output = Whole;
    fn sub(self, other: Whole) -> Whole {
        assert!(other <= self, "a difference is tested before it is taken");
        let mut digits = [0; LIMBS];
        let mut borrowed = false;
        for at in 0..LIMBS {
            let (difference, first) = self.0[at].overflowing_sub(other.0[at]);
            let (difference, second) = difference.overflowing_sub(borrowed.into());
            digits[at] = difference;
            borrowed = first || second;
        }
        Whole(digits)
    }
}

impl Mul for Whole {
    type Output = Whole;
    fn mul(self, other: Whole) -> Whole {
        let mut digits = [0u32; 2 * LIMBS];
        for (at, digit) in self.0.iter().enumerate().filter(|(_, digit)| **digit != 0) {
            let mut carry = 0u64;
            for (to, factor) in other.0.iter().enumerate() {
                let sum = u64::from(*digit) * u64::from(*factor) + u64::from(digits[at + to]) + carry;
                digits[at + to] = sum as u32;
                carry = sum >> 32;
            }
            digits[at + LIMBS] = carry as u32;
        }
        assert!(digits[LIMBS..].iter().all(|digit| *digit == 0), "a number passes 2^256");
        Whole(std::array::from_fn(|at| digits[at]))
    }
}

impl Div for Whole {
    type Output = Whole;
    fn div(self, divisor: Whole) -> Whole {
        self.divided(divisor).0
    }
}

impl Rem for Whole {
    type Output = Whole;
    fn rem(self, divisor: Whole) -> Whole {
        self.divided(divisor).1
    }
}

#[cfg(test)]
mod tests {
    use super::*;

    /// Numbers of every length in bits, some of them at its end.
    fn numbers() -> Vec<u128> {
        let mut number = 0x9E37_79B9_7F4A_7C15_F39C_C060_5CED_C835_u128;
        let mut numbers = vec![0, 1, 2, u128::MAX];
        for bits in 1..128 {
            number = number.wrapping_mul(0xDA94_2042_E4DD_58B5_u128).rotate_left(29) | 1;
            numbers.extend([number >> bits, (1 << bits) - 1, 1 << bits]);
        }
        numbers
    }

    fn of(number: u128) -> Whole {
        from_halves((number >> 64) as u64, number as u64)
    }

    #[test]
    fn agrees_with_the_machine_below_2_to_128() {
        for left in numbers() {
            for right in numbers() {
                assert_eq!(of(left) > of(right), left > right);
                if let Some(sum) = left.checked_add(right) {
                    assert_eq!(of(left) + of(right), of(sum));
                }
                if let Some(product) = left.checked_mul(right) {
                    assert_eq!(of(left) * of(right), of(product));
                }
                if let Some(difference) = left.checked_sub(right) {
                    assert_eq!(of(left) - of(right), of(difference));
                }
                if right != 0 {
                    assert_eq!(of(left) / of(right), of(left / right));
                    assert_eq!(of(left) % of(right), of(left % right));
                }
            }
        }
    }

    #[test]
    fn products_divide_back_past_2_to_128() {
        for left in numbers() {
            for right in numbers().into_iter().filter(|right| *right != 0) {
                let product = of(left) * of(right);
                assert_eq!(product / of(right), of(left));
                assert_eq!(product % of(right), ZERO);
                assert_eq!(divided_up(product + ONE, of(right)), of(left) + ONE);
            }
        }
    }

    #[test]
    fn roots_are_the_greatest() {
        for number in numbers().into_iter().map(of) {
            let root = whole_root(number);
            assert!(root * root <= number && (root + ONE) * (root + ONE) > number);
        }
    }
}
