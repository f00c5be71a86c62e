//! Each call once accepted and once refused, on the pool of the rules' worked example.

mod common;

use common::{opened_with, opening, refuses_on, RATES};
use cp_swap::LOCK_LP_AMOUNT;
use cp_swap::{Answer, Charge, Direction, FeeModel, Opening, Pool, Rates, Receipt, Refusal, Ring, StatusBit};

const CHARGES: [Charge; 2] = [Charge { points: 100, maximum: 50 }, Charge { points: 25, maximum: u64::MAX }];
const MOST: [u64; 2] = [u64::MAX; 2];

fn opened() -> (Pool, Ring) {
    opened_with(opening())
}

fn charged() -> (Pool, Ring) {
    opened_with(Opening { charges: CHARGES, ..opening() })
}

/// Refused with this, and neither pool nor ring is changed.
fn refuses(refusal: Refusal, call: impl FnOnce(&mut Pool, &mut Ring) -> Answer) {
    refuses_on(opened(), refusal, call);
}

#[test]
fn an_opening_issues_the_root_of_the_product() {
    let (mut pool, mut ring) = (Pool::default(), Ring::default());
    let receipt = pool.open(&mut ring, &opening()).expect("the opening is accepted");
    assert_eq!(
        receipt,
        Receipt { kind: 1, paid_in: [1_000_000, 4_000_000], lp: 2_000_000, ..Receipt::default() }
    );
    assert_eq!(pool.supply, 2_000_000);
    assert_eq!(pool.rates, RATES);
    assert_eq!(ring, Ring::default());
}

#[test]
fn an_opening_too_small_is_refused() {
    refuses(Refusal::InitLpAmountTooLess, |pool, ring| {
        pool.open(ring, &Opening { amounts: [100, 100], ..opening() })
    });
    refuses(Refusal::EmptySupply, |pool, ring| pool.open(ring, &Opening { amounts: [0, 100], ..opening() }));
    opened_with(Opening { amounts: [101, 101], ..opening() });
}

#[test]
fn a_swap_by_input_books_its_fees() {
    let (mut pool, mut ring) = opened();
    let receipt = pool.swap_base_input(&mut ring, Direction::ZeroForOne, 10_000, 1, 100);
    let expected = Receipt {
        kind: 2,
        clock: 100,
        paid_in: [10_000, 0],
        paid_out: [0, 39_505],
        trade_fee: 25,
        protocol_fee: 3,
        fund_fee: 1,
        ..Receipt::default()
    };
    assert_eq!(receipt, Ok(expected));
    assert_eq!(pool.vaults, [1_010_000, 3_960_495]);
    assert_eq!((pool.protocol_fees, pool.fund_fees), ([3, 0], [1, 0]));
    assert_eq!(pool.nets(), Ok([1_009_996, 3_960_495]));
    assert_eq!((pool.ring.used, pool.ring.mark, ring.entries[0].clock), (1, 100, 100));
}

#[test]
fn on_a_free_day_no_fee_is_charged() {
    let free = Opening { rates: Rates { trade: 0, ..RATES }, ..opening() };
    let day = opened_with(free);
    let swapped = Receipt { clock: 100, paid_in: [10_000, 0], paid_out: [0, 39_603], ..Receipt::default() };
    let (mut pool, mut ring) = day.clone();
    let by_input = pool.swap_base_input(&mut ring, Direction::ZeroForOne, 10_000, 39_603, 100);
    assert_eq!(by_input, Ok(Receipt { kind: 2, ..swapped }));
    assert_eq!(pool.nets(), Ok([1_010_000, 3_960_397]));
    let (mut pool, mut ring) = day;
    let by_output = pool.swap_base_output(&mut ring, Direction::ZeroForOne, 39_603, 10_000, 100);
    assert_eq!(by_output, Ok(Receipt { kind: 3, ..swapped }));
    assert_eq!(pool.nets(), Ok([1_010_000, 3_960_397]));
}

#[test]
fn a_swap_by_output_costs_as_much() {
    let (mut pool, mut ring) = opened();
    let receipt = pool.swap_base_output(&mut ring, Direction::ZeroForOne, 39_505, 10_000, 100);
    assert_eq!(receipt.map(|receipt| receipt.paid_in), Ok([10_000, 0]));
    refuses(Refusal::Panic, |pool, ring| {
        pool.swap_base_output(ring, Direction::ZeroForOne, 4_000_000, u64::MAX, 100)
    });
}

#[test]
fn swaps_keep_the_callers_limit() {
    refuses(Refusal::ExceededSlippage, |pool, ring| {
        pool.swap_base_input(ring, Direction::ZeroForOne, 10_000, 39_506, 100)
    });
    refuses(Refusal::ExceededSlippage, |pool, ring| {
        pool.swap_base_output(ring, Direction::ZeroForOne, 39_505, 9_999, 100)
    });
    refuses(Refusal::RequireViolated, |pool, ring| {
        pool.swap_base_input(ring, Direction::OneForZero, 0, 0, 100)
    });
}

#[test]
fn creator_fees_are_taken_where_the_model_says() {
    let rates = Rates { creator: 1_000, ..RATES };
    let swapped = |fee_model| {
        let (mut pool, mut ring) = opened_with(Opening { fee_model, enabled: true, rates, ..opening() });
        pool.swap_base_input(&mut ring, Direction::ZeroForOne, 10_000, 1, 100).expect("the swap is accepted")
    };
    let on_input = swapped(FeeModel::Input);
    assert_eq!((on_input.creator_fee, on_input.trade_fee, on_input.creator_fee_token), (10, 25, 0));
    let on_token_1 = swapped(FeeModel::Token1);
    assert_eq!(
        (on_token_1.creator_fee, on_token_1.paid_out, on_token_1.creator_fee_token),
        (40, [0, 39_465], 1)
    );
}

#[test]
fn deposits_and_withdrawals_round_for_the_pool() {
    let (mut pool, mut ring) = opened();
    let deposit = pool.deposit(&mut ring, 3, MOST).expect("the deposit is accepted");
    assert_eq!((deposit.paid_in, deposit.lp, pool.supply), ([2, 6], 3, 2_000_003));
    let withdrawal = pool.withdraw(&mut ring, 3, 3, [0, 0]).expect("the withdrawal is accepted");
    assert_eq!((withdrawal.paid_out, pool.supply), ([1, 6], 2_000_000));
    refuses(Refusal::ZeroTradingTokens, |pool, ring| pool.deposit(ring, 1, MOST));
    refuses(Refusal::RequireViolated, |pool, ring| pool.withdraw(ring, 3, 2, [0, 0]));
}

/// Of the supply of 2,000,000 all but 100 can be withdrawn; what is below a minimum, or more than there is,
/// is refused first.
#[test]
fn a_hundred_lp_tokens_stay() {
    let all = 2_000_000;
    let (mut pool, mut ring) = opened();
    let receipt = pool.withdraw(&mut ring, all - LOCK_LP_AMOUNT, all, [0, 0]).expect("a hundred are left");
    assert_eq!((receipt.paid_out, receipt.lp, pool.supply), ([999_950, 3_999_800], 1_999_900, 100));
    assert_eq!(pool.nets(), Ok([50, 200]));
    refuses_on((pool, ring), Refusal::LeftLpAmountTooLess, |pool, ring| pool.withdraw(ring, 2, 100, [1, 4]));

    for lp in [all - LOCK_LP_AMOUNT + 1, all] {
        refuses(Refusal::LeftLpAmountTooLess, |pool, ring| pool.withdraw(ring, lp, lp, [0, 0]));
    }
    refuses(Refusal::ExceededSlippage, |pool, ring| pool.withdraw(ring, all, all, [1_000_001, 0]));
    refuses(Refusal::Panic, |pool, ring| pool.withdraw(ring, all + 1, all + 1, [0, 0]));
}

/// An opening of 101 LP tokens leaves its opener one.
#[test]
fn the_smallest_opening_has_one_lp_token_to_withdraw() {
    let smallest = || opened_with(Opening { amounts: [101, 101], ..opening() });
    let (mut pool, mut ring) = smallest();
    assert_eq!(pool.withdraw(&mut ring, 1, 1, [1, 1]).map(|receipt| receipt.paid_out), Ok([1, 1]));
    assert_eq!((pool.supply, pool.nets()), (LOCK_LP_AMOUNT, Ok([100, 100])));
    refuses_on(smallest(), Refusal::LeftLpAmountTooLess, |pool, ring| pool.withdraw(ring, 2, 2, [0, 0]));
}

/// A deposit of 3 takes 2 and 6, a withdrawal of 3 gives 1 and 6; one token's limit alone can refuse.
#[test]
fn deposits_and_withdrawals_keep_the_limit_of_each_token() {
    let (mut pool, mut ring) = opened();
    assert!(pool.deposit(&mut ring, 3, [2, 6]).is_ok());
    let (mut pool, mut ring) = opened();
    assert!(pool.withdraw(&mut ring, 3, 3, [1, 6]).is_ok());
    for maximums in [[1, 6], [2, 5]] {
        refuses(Refusal::ExceededSlippage, |pool, ring| pool.deposit(ring, 3, maximums));
    }
    for minimums in [[2, 6], [1, 7]] {
        refuses(Refusal::ExceededSlippage, |pool, ring| pool.withdraw(ring, 3, 3, minimums));
    }
}

#[test]
fn a_record_that_is_no_pool_is_refused() {
    let (mut pool, mut ring) = opened();
    pool.enabled = 2;
    assert_eq!(pool.nets(), Err(Refusal::InvalidInput));
    assert_eq!(pool.set_status(&mut ring, StatusBit::Swaps, true), Err(Refusal::InvalidInput));
    assert_eq!(pool.open(&mut ring, &opening()).map(|receipt| receipt.lp), Ok(2_000_000));
}

#[test]
fn a_settlement_pays_the_creators() {
    let rates = Rates { creator: 1_000, ..RATES };
    let (mut pool, mut ring) = opened_with(Opening { enabled: true, rates, ..opening() });
    pool.swap_base_input(&mut ring, Direction::ZeroForOne, 10_000, 1, 100).expect("the swap is accepted");
    assert_eq!(pool.creator_fees, [10, 0]);
    let receipt = pool.settle_creator_fee(&mut ring, 300_000).expect("the settlement is accepted");
    assert_eq!((receipt.paid_out, receipt.shared), ([7, 0], [3, 0]));
    assert_eq!((pool.creator_fees, pool.protocol_fees[0]), ([0, 0], 6));
    refuses(Refusal::InvalidInput, |pool, ring| pool.settle_creator_fee(ring, 1_000_001));
}

#[test]
fn a_set_bit_closes() {
    let (mut pool, mut ring) = opened();
    for (bit, status) in [(StatusBit::Deposits, 1), (StatusBit::Withdrawals, 3), (StatusBit::Swaps, 7)] {
        pool.set_status(&mut ring, bit, true).expect("the status is accepted");
        assert_eq!(pool.status, status);
    }
    let swap = pool.swap_base_input(&mut ring, Direction::ZeroForOne, 10_000, 1, 100);
    let deposit = pool.deposit(&mut ring, 3, MOST);
    let withdrawal = pool.withdraw(&mut ring, 3, 3, [0, 0]);
    assert_eq!([swap, deposit, withdrawal], [Err(Refusal::NotApproved); 3]);
    pool.set_status(&mut ring, StatusBit::Swaps, false).expect("the status is accepted");
    assert!(pool.swap_base_input(&mut ring, Direction::ZeroForOne, 10_000, 1, 100).is_ok());
}

/// Asked for nothing: both swaps, a deposit, and withdrawals of nothing and of more than the owner's.
fn for_nothing(pool: &mut Pool, ring: &mut Ring) -> [Answer; 5] {
    [
        pool.swap_base_input(ring, Direction::ZeroForOne, 0, 1, 100),
        pool.swap_base_output(ring, Direction::ZeroForOne, 0, u64::MAX, 100),
        pool.deposit(ring, 0, MOST),
        pool.withdraw(ring, 0, 3, [0, 0]),
        pool.withdraw(ring, 4, 3, [0, 0]),
    ]
}

#[test]
fn closed_comes_before_nothing() {
    let (mut pool, mut ring) = opened();
    assert_eq!(for_nothing(&mut pool, &mut ring), [Err(Refusal::RequireViolated); 5]);
    for bit in [StatusBit::Deposits, StatusBit::Withdrawals, StatusBit::Swaps] {
        pool.set_status(&mut ring, bit, true).expect("the status is accepted");
    }
    assert_eq!(for_nothing(&mut pool, &mut ring), [Err(Refusal::NotApproved); 5]);
}

#[test]
fn only_swaps_wait_for_the_open_time() {
    let (mut pool, mut ring) = opened_with(Opening { open_time: 101, ..opening() });
    let [by_input, by_output, liquidity @ ..] = for_nothing(&mut pool, &mut ring);
    assert_eq!([by_input, by_output], [Err(Refusal::NotApproved); 2]);
    assert_eq!(liquidity, [Err(Refusal::RequireViolated); 3]);
}

#[test]
fn an_opening_bears_no_charge() {
    let (mut pool, mut ring) = (Pool::default(), Ring::default());
    let receipt = pool.open(&mut ring, &Opening { charges: CHARGES, ..opening() });
    let expected = Receipt { kind: 1, paid_in: [1_000_000, 4_000_000], lp: 2_000_000, ..Receipt::default() };
    assert_eq!((receipt, pool.charges), (Ok(expected), CHARGES));
    let at = |points| [CHARGES[0], Charge { points, maximum: 0 }];
    opened_with(Opening { charges: at(9_999), ..opening() });
    refuses(Refusal::InvalidInput, |pool, ring| {
        pool.open(ring, &Opening { charges: at(10_000), ..opening() })
    });
}

/// 10,000 are sent and 9,950 arrive; 39,309 leave and 39,210 are received.
#[test]
fn limits_of_swaps_look_at_what_is_sent_and_received() {
    let direction = Direction::ZeroForOne;
    let swapped = |kind, answer: Answer| {
        let receipt = answer.expect("the swap is accepted");
        assert_eq!((receipt.kind, receipt.paid_in, receipt.paid_out), (kind, [9_950, 0], [0, 39_309]));
        assert_eq!(receipt.charges, [50, 99]);
    };
    let (mut pool, mut ring) = charged();
    swapped(2, pool.swap_base_input(&mut ring, direction, 10_000, 39_210, 100));
    assert_eq!(pool.vaults, [1_009_950, 3_960_691]);
    let (mut pool, mut ring) = charged();
    swapped(3, pool.swap_base_output(&mut ring, direction, 39_210, 10_000, 100));
    assert_eq!(pool.vaults, [1_009_950, 3_960_691]);
    refuses_on(charged(), Refusal::ExceededSlippage, |pool, ring| {
        pool.swap_base_input(ring, direction, 10_000, 39_211, 100)
    });
    refuses_on(charged(), Refusal::ExceededSlippage, |pool, ring| {
        pool.swap_base_output(ring, direction, 39_210, 9_999, 100)
    });
    refuses_on(charged(), Refusal::RequireViolated, |pool, ring| {
        pool.swap_base_input(ring, direction, 1, 0, 100)
    });
}

#[test]
fn limits_of_deposits_and_withdrawals_look_at_what_is_sent_and_received() {
    let (mut pool, mut ring) = charged();
    let deposit = pool.deposit(&mut ring, 10_000, [5_050, 20_051]).expect("the deposit is accepted");
    assert_eq!((deposit.paid_in, deposit.charges), ([5_000, 20_000], [50, 51]));
    let (mut pool, mut ring) = charged();
    let withdrawal = pool.withdraw(&mut ring, 10_000, 10_000, [4_950, 19_950]);
    let withdrawal = withdrawal.expect("the withdrawal is accepted");
    assert_eq!((withdrawal.paid_out, withdrawal.charges), ([5_000, 20_000], [50, 50]));
    for maximums in [[5_049, 20_051], [5_050, 20_050]] {
        refuses_on(charged(), Refusal::ExceededSlippage, |pool, ring| pool.deposit(ring, 10_000, maximums));
    }
    for minimums in [[4_951, 19_950], [4_950, 19_951]] {
        refuses_on(charged(), Refusal::ExceededSlippage, |pool, ring| {
            pool.withdraw(ring, 10_000, 10_000, minimums)
        });
    }
}

#[test]
fn a_settlement_shows_its_charge() {
    let rates = Rates { creator: 1_000, ..RATES };
    let (mut pool, mut ring) = opened_with(Opening { enabled: true, rates, charges: CHARGES, ..opening() });
    pool.swap_base_input(&mut ring, Direction::ZeroForOne, 10_000, 1, 100).expect("the swap is accepted");
    let owed = pool.creator_fees[0];
    let receipt = pool.settle_creator_fee(&mut ring, 0).expect("the settlement is accepted");
    assert_eq!((owed, receipt.paid_out, receipt.charges), (10, [10, 0], [1, 0]));
}

/// Of a token that is charged up to 50, the most that can arrive is 2^64 - 51.
#[test]
fn what_cannot_be_sent_for_is_refused() {
    let wanted = |amount| {
        move |pool: &mut Pool, ring: &mut Ring| {
            pool.swap_base_output(ring, Direction::OneForZero, amount, u64::MAX, 100)
        }
    };
    refuses_on(charged(), Refusal::Panic, wanted(u64::MAX - 50));
    refuses_on(charged(), Refusal::TransferFeeCalculateNotMatch, wanted(u64::MAX - 49));
}
