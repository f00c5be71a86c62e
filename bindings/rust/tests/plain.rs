//! The calls over plain numbers: what a refusal leaves, and the order of the numbers.

use cp_swap::{plain, Charge, Entry, Grid, Holder, Pool, Rates, Receipt, Refusal, Ring, RingHead, Sum};

fn opened() -> ([u64; 27], [u64; 500]) {
    let (mut pool, mut ring, mut receipt) = ([0; 27], [0; 500], [0; 18]);
    let opening = [1_000_000, 4_000_000, 0, 0, 0, 2_500, 120_000, 40_000, 0, 0, 0, 0, 0, 0, 15, 100];
    let number = plain::open(&mut pool, &mut ring, &mut receipt, &opening);
    assert_eq!(number, 0);
    (pool, ring)
}

/// A refused call's receipt.
fn refusal(number: u64) -> [u64; 18] {
    let mut receipt = [0; 18];
    receipt[0] = number;
    receipt
}

/// Refused with this number: pool and ring stay, and the receipt holds the number and zeros.
fn refuses(number: u64, call: impl FnOnce(&mut [u64; 27], &mut [u64; 500], &mut [u64; 18]) -> u64) {
    let (mut pool, mut ring) = opened();
    let mut receipt = [7; 18];
    let before = (pool, ring);
    assert_eq!(call(&mut pool, &mut ring, &mut receipt), number);
    assert_eq!(((pool, ring), receipt), (before, refusal(number)));
}

#[test]
fn a_refused_call_writes_only_its_receipt() {
    refuses(5, |pool, ring, receipt| plain::base_input(pool, ring, receipt, 2, 10_000, 0, 0));
    refuses(10, |pool, ring, receipt| plain::base_output(pool, ring, receipt, 0, 0, 0, 0));
    refuses(10, |pool, ring, receipt| plain::deposit(pool, ring, receipt, 0, [9, 9]));
    refuses(10, |pool, ring, receipt| plain::withdraw(pool, ring, receipt, 3, 2, [0, 0]));
    refuses(3, |pool, ring, receipt| plain::settle_creator_fee(pool, ring, receipt, 1_000_001));
    refuses(3, |pool, ring, receipt| plain::set_status(pool, ring, receipt, 3, 0));
    let opening = |model, points, length| [200, 200, model, 0, 0, 0, 0, 0, 0, 0, points, 0, 0, 0, 15, length];
    refuses(9, |pool, ring, receipt| plain::open(pool, ring, receipt, &opening(3, 0, 100)));
    refuses(3, |pool, ring, receipt| plain::open(pool, ring, receipt, &opening(0, 10_000, 100)));
    refuses(3, |pool, ring, receipt| plain::open(pool, ring, receipt, &opening(0, 0, 101)));
}

/// The points that a record built by hand has may be any: here the charge takes all.
#[test]
fn nothing_can_be_sent_where_the_charge_takes_all() {
    let (mut pool, mut ring) = opened();
    (pool[21], pool[22]) = (10_000, u64::MAX);
    let (before, mut receipt) = (pool, [7; 18]);
    assert_eq!(plain::base_output(&mut pool, &mut ring, &mut receipt, 0, 1, u64::MAX, 0), 14);
    assert_eq!((pool, receipt), (before, refusal(14)));
    assert_eq!(plain::deposit(&mut pool, &mut ring, &mut receipt, 3, [0, 0]), 14);
    assert_eq!(plain::base_input(&mut pool, &mut ring, &mut receipt, 0, u64::MAX, 0, 0), 10);
    assert_eq!(plain::base_input(&mut pool, &mut ring, &mut receipt, 2, 1, 0, 0), 5);
    assert_eq!(plain::base_input(&mut pool, &mut ring, &mut receipt, 2, 0, 0, 0), 10);
    assert_eq!((pool, receipt), (before, refusal(10)));
    assert_eq!(plain::withdraw(&mut pool, &mut ring, &mut receipt, 3, 3, [0, 6]), 0);
    assert_eq!((&receipt[6..8], &receipt[16..]), (&[1, 6][..], &[1, 0][..]));
}

#[test]
fn a_record_with_a_wrong_flag_is_refused() {
    for flag in [12, 18] {
        let (mut pool, mut ring) = opened();
        pool[flag] = 2;
        let (mut receipt, mut nets) = ([7; 18], [7; 2]);
        let before = pool;
        assert_eq!(plain::base_input(&mut pool, &mut ring, &mut receipt, 0, 10_000, 0, 0), 3);
        assert_eq!(plain::deposit(&mut pool, &mut ring, &mut receipt, 3, [9, 9]), 3);
        assert_eq!(plain::nets(&pool, &mut nets), 3);
        assert_eq!((pool, receipt, nets), (before, refusal(3), [7; 2]));
    }
}

#[test]
fn the_ring_moves_on_after_15_seconds() {
    let (mut pool, mut ring) = opened();
    let mut receipt = [0; 18];
    for clock in [100, 114, 115] {
        assert_eq!(plain::base_input(&mut pool, &mut ring, &mut receipt, 0, 10_000, 0, clock), 0);
    }
    assert_eq!(&pool[18..21], [1, 1, 115]);
    assert_eq!((ring[0], ring[5]), (100, 115));
    assert!(ring[1] == 0 && ring[2] > 0 && ring[6] == 0 && ring[7] > ring[2]);
    assert_eq!(&pool[25..], [15, 100]);
}

#[test]
fn records_are_their_numbers_in_order() {
    let pool = Pool {
        vaults: [1, 2],
        protocol_fees: [3, 4],
        fund_fees: [5, 6],
        creator_fees: [7, 8],
        supply: 9,
        status: 10,
        open_time: 11,
        fee_model: 12,
        enabled: 13,
        rates: Rates { trade: 14, protocol: 15, fund: 16, creator: 17, share: 18 },
        ring: RingHead { used: 19, index: 20, mark: 21 },
        charges: [Charge { points: 22, maximum: 23 }, Charge { points: 24, maximum: 25 }],
        grid: Grid { spacing: 26, length: 27 },
    };
    let numbers: [u64; 27] = std::array::from_fn(|at| 1 + at as u64);
    assert_eq!(pool.words(), numbers);
    assert_eq!(Pool::from_words(numbers), pool);
    assert_eq!(Pool::default().words(), [0; 27]);

    let mut ring = Ring::default();
    ring.entries[99] = Entry { clock: 1, sums: [Sum { high: 2, low: 3 }, Sum { high: 4, low: 5 }] };
    assert_eq!(ring.words_mut()[495..], [1, 2, 3, 4, 5]);
    assert_eq!(ring.entries[99].sums[1].value(), (4 << 64) + 5);

    let mut receipt = Receipt { shared: [1, 2], charges: [3, 4], ..Receipt::default() };
    assert_eq!(receipt.words_mut()[14..], [1, 2, 3, 4]);

    let mut entries = [Holder { number: 1, balance: 2 }, Holder { number: 3, balance: 4 }];
    assert_eq!(plain::holder_words(&entries), [1, 2, 3, 4]);
    plain::holder_words_mut(&mut entries)[3] = 5;
    assert_eq!(entries[1], Holder { number: 3, balance: 5 });
}

#[test]
fn refusals_keep_their_numbers() {
    for (at, refusal) in Refusal::ALL.into_iter().enumerate() {
        assert_eq!(refusal.number(), 1 + at as u64);
        assert_eq!(Refusal::from_number(refusal.number()), Some(refusal));
    }
    assert_eq!(Refusal::from_number(0), None);
    assert_eq!(Refusal::from_number(17), None);
    assert_eq!(Refusal::ExceededSlippage.to_string(), "the price is beyond the caller's limit (refusal 2)");
}
