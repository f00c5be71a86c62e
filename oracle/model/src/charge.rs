//! Document 02 (c): what a transfer is charged, and what has to be sent so that an amount arrives.

use crate::whole::{divided_up, whole, Whole, ZERO};
use record::Charge;

const TEN_THOUSAND: u64 = 10_000;

/// The charge on an amount: its points per 10,000, rounded up, capped at the maximum and at the amount.
pub fn charge_on(amount: Whole, charge: Charge) -> Whole {
    let points = divided_up(amount * whole(charge.points), whole(TEN_THOUSAND));
    points.min(whole(charge.maximum)).min(amount)
}

/// The least amount of which just this arrives. Sent on top of it are points / (10,000 - points) of it,
/// rounded up, and never more than the maximum; where the points leave nothing it is the maximum. For
/// nothing to arrive, nothing is sent.
pub fn least_sent(wanted: Whole, charge: Charge) -> Whole {
    let maximum = whole(charge.maximum);
    if wanted == ZERO {
        ZERO
    } else if charge.points < TEN_THOUSAND {
        let left = whole(TEN_THOUSAND - charge.points);
        wanted + divided_up(wanted * whole(charge.points), left).min(maximum)
    } else {
        wanted + maximum
    }
}

#[cfg(test)]
mod tests {
    use super::*;
    use crate::whole::{two_to, ONE};
    use std::collections::BTreeMap;

    const POINTS: [u64; 16] =
        [0, 1, 2, 25, 100, 3333, 5000, 6667, 9000, 9998, 9999, 10_000, 10_001, 20_000, 1 << 63, u64::MAX];
    const MAXIMUMS: [u64; 12] = [0, 1, 2, 5, 7, 50, 99, 100, 1000, 1 << 32, 1 << 63, u64::MAX];

    fn charges() -> impl Iterator<Item = Charge> {
        POINTS.into_iter().flat_map(|points| MAXIMUMS.map(|maximum| Charge { points, maximum }))
    }

    /// What reaches the other side.
    fn arriving(amount: Whole, charge: Charge) -> Whole {
        amount - charge_on(amount, charge)
    }

    /// For each rest of the amounts up to this one, the least amount that leaves it.
    fn searched(charge: Charge, up_to: u64) -> BTreeMap<u64, u64> {
        let mut least = BTreeMap::new();
        for amount in 0..=up_to {
            let rest = arriving(whole(amount), charge).as_u64().expect("a rest is at most its amount");
            least.entry(rest).or_insert(amount);
        }
        least
    }

    /// Whether the least for each amount up to the greatest is the searched one, where that is so small.
    fn is_as_searched(charge: Charge, up_to: u64) {
        let found = searched(charge, up_to);
        for wanted in 0..=up_to {
            let least = least_sent(whole(wanted), charge).as_u64().filter(|least| *least <= up_to);
            assert_eq!(least, found.get(&wanted).copied(), "{wanted} of {charge:?}");
        }
    }

    #[test]
    fn the_charge_is_points_rounded_up_and_capped_twice() {
        let on = |amount, points, maximum| charge_on(whole(amount), Charge { points, maximum });
        for (amount, points, maximum, charged) in [
            (10_000, 100, u64::MAX, 100),
            (10_000, 100, 50, 50),
            (1, 1, u64::MAX, 1),
            (10_001, 1, u64::MAX, 2),
            (0, 9999, u64::MAX, 0),
            (7, 20_000, u64::MAX, 7),
            (7, 20_000, 5, 5),
            (u64::MAX, u64::MAX, u64::MAX, u64::MAX),
            (u64::MAX, u64::MAX, 0, 0),
            (u64::MAX, 0, u64::MAX, 0),
        ] {
            assert_eq!(on(amount, points, maximum), whole(charged), "{amount} {points} {maximum}");
        }
    }

    #[test]
    fn the_rest_grows_by_0_or_1() {
        for charge in charges() {
            for amount in 0..600 {
                let (rest, next) = (arriving(whole(amount), charge), arriving(whole(amount + 1), charge));
                assert!(next == rest || next == rest + ONE, "{charge:?} {amount}");
            }
        }
    }

    #[test]
    fn the_least_is_the_first_that_a_search_finds() {
        charges().for_each(|charge| is_as_searched(charge, 600));
    }

    #[test]
    fn all_points_up_to_20_000_by_search() {
        for points in 0..=20_000 {
            for maximum in [0, 1, 3, u64::MAX] {
                is_as_searched(Charge { points, maximum }, 12);
            }
        }
    }

    /// At 9,999 points all but one of 10,000 is kept.
    #[test]
    fn the_least_at_high_points_by_search() {
        for maximum in [5, 90_000, u64::MAX] {
            is_as_searched(Charge { points: 9999, maximum }, 100_001);
        }
    }

    /// Its rest is what is wanted, and one less has not that rest; it is past u64 exactly where what is
    /// wanted is above the rest of the greatest u64.
    #[test]
    fn the_least_of_great_amounts() {
        let most = whole(u64::MAX);
        for charge in charges() {
            let greatest = arriving(most, charge).as_u64().expect("a rest is at most its amount");
            let around = |number: u64| [number.saturating_sub(1), number, number.saturating_add(1)];
            let mut wanted: Vec<u64> = [greatest, 1 << 32, 1 << 63, u64::MAX / 3].map(around).concat();
            wanted.extend([0, 1, 2, 9999, 10_000, u64::MAX - 1, u64::MAX]);
            for wanted in wanted {
                let least = least_sent(whole(wanted), charge);
                assert_eq!(arriving(least, charge), whole(wanted), "{wanted} of {charge:?}");
                if least != ZERO {
                    assert!(arriving(least - ONE, charge) < whole(wanted), "{wanted} of {charge:?}");
                }
                assert_eq!(least < two_to(64), wanted <= greatest, "{wanted} of {charge:?}");
            }
        }
    }
}
