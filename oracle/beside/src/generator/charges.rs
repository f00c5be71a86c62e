//! What transfers of a pool's tokens are charged.

use crate::random::Random;
use record::Charge;

/// How the charges of a pool are chosen.
pub type Charges = fn(&mut Random) -> [Charge; 2];

/// Points that an opening accepts.
const POINTS: [u64; 6] = [0, 1, 25, 100, 5000, 9999];
/// Points that only a pool built by hand can have.
const POINTS_BY_HAND: [u64; 4] = [10_000, 10_001, 20_000, u64::MAX];
const MAXIMUMS: [u64; 6] = [0, 1, 50, 1 << 32, 1 << 63, u64::MAX];

/// Points 0, which charge nothing whatever the maximums are: there the original is run beside.
pub fn none(random: &mut Random) -> [Charge; 2] {
    [0, 1].map(|_| Charge { points: 0, maximum: if random.chance(2) { 0 } else { maximum(random) } })
}

/// Points above 0 of one token or of both.
pub fn some(random: &mut Random) -> [Charge; 2] {
    let mut charges = [0, 1].map(|_| Charge { points: points(random), maximum: maximum(random) });
    if charges.iter().all(|charge| charge.points == 0) {
        charges[random.below(2) as usize].points = 1 + random.below(9999);
    }
    charges
}

/// One pool in four with points above 0.
pub fn mixed(random: &mut Random) -> [Charge; 2] {
    if random.chance(4) {
        some(random)
    } else {
        none(random)
    }
}

/// Those of a pool built by hand: at times with points that no opening accepts.
pub fn by_hand(random: &mut Random, charges: Charges) -> [Charge; 2] {
    charges(random).map(|charge| match charge.points {
        1.. if random.chance(6) => Charge { points: random.pick(&POINTS_BY_HAND), ..charge },
        _ => charge,
    })
}

/// The most that can arrive.
pub fn most_arriving(charge: Charge) -> u64 {
    u64::MAX - model::calls::charged(u64::MAX, charge)
}

fn points(random: &mut Random) -> u64 {
    if random.chance(3) {
        random.below(10_000)
    } else {
        random.pick(&POINTS)
    }
}

fn maximum(random: &mut Random) -> u64 {
    if random.chance(3) {
        random.any()
    } else {
        random.pick(&MAXIMUMS)
    }
}
