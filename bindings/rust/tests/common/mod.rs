//! What the tests of the calls share: the worked opening, an opened pool, and a refusal that changes nothing.

use cp_swap::{Answer, Opening, Pool, Rates, Refusal, Ring};

pub const RATES: Rates = Rates { trade: 2_500, protocol: 120_000, fund: 40_000, creator: 0, share: 0 };

/// The opening of the rules' worked example, whose supply is 2,000,000.
pub fn opening() -> Opening {
    Opening { amounts: [1_000_000, 4_000_000], rates: RATES, ..Opening::default() }
}

pub fn opened_with(opening: Opening) -> (Pool, Ring) {
    let (mut pool, mut ring) = (Pool::default(), Ring::default());
    pool.open(&mut ring, &opening).expect("the opening is accepted");
    (pool, ring)
}

/// Refused with this, and neither pool nor ring is changed.
pub fn refuses_on(
    (mut pool, mut ring): (Pool, Ring),
    refusal: Refusal,
    call: impl FnOnce(&mut Pool, &mut Ring) -> Answer,
) {
    let before = (pool, ring.clone());
    assert_eq!(call(&mut pool, &mut ring), Err(refusal));
    assert_eq!((pool, ring), before);
}
