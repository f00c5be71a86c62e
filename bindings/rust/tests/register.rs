//! The calls with a register: what is one, whose entry they write, what they refuse, and that pool, ring and
//! receipt are those of the calls without.

mod common;
#[path = "../examples/register.rs"]
mod example;

use common::{opened_with, opening, refuses_on};
use cp_swap::plain::{self, PoolWords, ReceiptWords, RingWords};
use cp_swap::{Answer, Charge, Direction, Holder, Opening, Pool, Receipt, Refusal, Register, Ring};
use cp_swap::{LOCK_LP_AMOUNT, MOST_HOLDERS};

const MOST: [u64; 2] = [u64::MAX; 2];

fn opened() -> (Pool, Ring) {
    opened_with(opening())
}

fn holders<const N: usize>(entries: [(u64, u64); N]) -> [Holder; N] {
    entries.map(|(number, balance)| Holder { number, balance })
}

fn register<const N: usize>(entries: [(u64, u64); N]) -> Register {
    Register::from_entries(holders(entries)).expect("it is a register")
}

/// Refused with this, and pool, ring and register are as they were.
fn refuses(
    on: (Pool, Ring),
    register: &Register,
    refusal: Refusal,
    call: impl FnOnce(&mut Pool, &mut Ring, &mut Register) -> Answer,
) {
    let mut lent = register.clone();
    refuses_on(on, refusal, |pool, ring| call(pool, ring, &mut lent));
    assert_eq!(&lent, register);
}

#[test]
fn the_worked_example() {
    example::main().expect("a register of three entries");
}

#[test]
fn pool_ring_and_receipt_are_those_without_a_register() {
    let charges = [Charge { points: 100, maximum: 50 }, Charge { points: 25, maximum: u64::MAX }];
    let opening = Opening { charges, ..opening() };
    let (mut pool, mut ring, mut register) = (Pool::default(), Ring::default(), register([(0, 0), (0, 0)]));
    let (mut bare, mut bare_ring) = (pool, ring.clone());
    assert_eq!(pool.open_by(&mut ring, &mut register, 7, &opening), bare.open(&mut bare_ring, &opening));
    let direction = Direction::ZeroForOne;
    assert_eq!(
        pool.swap_base_input(&mut ring, direction, 10_000, 1, 100),
        bare.swap_base_input(&mut bare_ring, direction, 10_000, 1, 100)
    );
    for (lp, maximums) in [(10_000, MOST), (0, MOST), (10_000, [5_050, 1])] {
        assert_eq!(
            pool.deposit_by(&mut ring, &mut register, 8, lp, maximums),
            bare.deposit(&mut bare_ring, lp, maximums)
        );
    }
    for (lp, minimums) in [(4_000, [0, 0]), (6_001, [0, 0]), (6_000, MOST), (6_000, [1, 1])] {
        let owned = register.balance(8).expect("8 is a holder");
        assert_eq!(
            pool.withdraw_by(&mut ring, &mut register, 8, lp, minimums),
            bare.withdraw(&mut bare_ring, lp, owned, minimums)
        );
    }
    assert_eq!((pool, ring), (bare, bare_ring));
    assert_eq!(register.entries(), holders([(7, 1_999_900), (8, 0)]));
}

#[test]
fn an_opening_clears_the_old_entries() {
    let old = register([(1, 5), (2, u64::MAX), (9, 0)]);
    refuses(opened(), &old, Refusal::EmptySupply, |pool, ring, register| {
        pool.open_by(ring, register, 2, &Opening { amounts: [0, 1], ..opening() })
    });
    let ((mut pool, mut ring), mut register) = (opened(), old);
    pool.open_by(&mut ring, &mut register, 2, &opening()).expect("the opening is accepted");
    assert_eq!(register.entries(), holders([(2, 2_000_000 - LOCK_LP_AMOUNT), (0, 0), (0, 0)]));
}

/// Not one behind it where his number stands already.
#[test]
fn a_new_holder_takes_the_first_free_entry() {
    let ((mut pool, mut ring), mut register) = (opened(), register([(7, 10), (9, 0), (8, 0), (0, 0)]));
    for (holder, lp) in [(8, 1_000), (8, 500), (9, 20), (7, 30), (1, 40)] {
        pool.deposit_by(&mut ring, &mut register, holder, lp, MOST).expect("the deposit is accepted");
    }
    assert_eq!(register.entries(), holders([(7, 40), (8, 1_500), (9, 20), (1, 40)]));
}

#[test]
fn a_full_register_takes_no_new_holder() {
    let full = register([(7, 10), (9, 20)]);
    refuses(opened(), &full, Refusal::RegisterFull, |pool, ring, register| {
        pool.deposit_by(ring, register, 8, 1_000, MOST)
    });
    refuses(opened(), &full, Refusal::ExceededSlippage, |pool, ring, register| {
        pool.deposit_by(ring, register, 8, 1_000, [0, 0])
    });
    let (mut pool, ring) = opened();
    pool.vaults[0] = u64::MAX;
    refuses((pool, ring), &full, Refusal::MathOverflow, |pool, ring, register| {
        pool.deposit_by(ring, register, 8, 1_000, MOST)
    });
    let ((mut pool, mut ring), mut register) = (opened(), full);
    pool.deposit_by(&mut ring, &mut register, 9, 1_000, MOST).expect("9 has an entry");
    assert_eq!(register.entries(), holders([(7, 10), (9, 1_020)]));
}

#[test]
fn a_balance_keeps_its_width() {
    let almost = |balance| register([(7, 10), (8, balance)]);
    refuses(opened(), &almost(u64::MAX - 999), Refusal::MathOverflow, |pool, ring, register| {
        pool.deposit_by(ring, register, 8, 1_000, MOST)
    });
    let ((mut pool, mut ring), mut register) = (opened(), almost(u64::MAX - 1_000));
    pool.deposit_by(&mut ring, &mut register, 8, 1_000, MOST).expect("the sum is 2^64 - 1");
    assert_eq!(register.balance(8), Ok(u64::MAX));
}

#[test]
fn a_withdrawal_takes_what_the_holder_owns() {
    let list = register([(8, 0), (7, 1_999_901), (8, 1_000)]);
    for (holder, lp) in [(8, 1_001), (8, 0), (9, 1), (9, 0)] {
        refuses(opened(), &list, Refusal::RequireViolated, |pool, ring, register| {
            pool.withdraw_by(ring, register, holder, lp, [0, 0])
        });
    }
    refuses(opened(), &list, Refusal::LeftLpAmountTooLess, |pool, ring, register| {
        pool.withdraw_by(ring, register, 7, 1_999_901, [0, 0])
    });
    let ((mut pool, mut ring), mut register) = (opened(), list);
    pool.withdraw_by(&mut ring, &mut register, 8, 1_000, [0, 0]).expect("8 owns as many");
    pool.withdraw_by(&mut ring, &mut register, 7, 1, [0, 0]).expect_err("1 is worth no token 0");
    pool.withdraw_by(&mut ring, &mut register, 7, 2, [0, 0]).expect("7 owns more");
    assert_eq!(register.entries(), holders([(8, 0), (7, 1_999_899), (8, 0)]));
}

/// All entries taken, one holder after the other, and given back.
#[test]
fn balances_and_the_locked_are_the_supply() {
    let (mut pool, mut ring) = (Pool::default(), Ring::default());
    let mut register = Register::new(MOST_HOLDERS).expect("256 entries");
    pool.open_by(&mut ring, &mut register, 1, &opening()).expect("the opening is accepted");
    let is_supply = |pool: &Pool, register: &Register| {
        let balances: u64 = register.entries().iter().map(|entry| entry.balance).sum();
        assert_eq!(balances + LOCK_LP_AMOUNT, pool.supply);
    };
    for holder in 2..=256 {
        pool.deposit_by(&mut ring, &mut register, holder, 10 * holder, MOST).expect("a free entry");
        assert_eq!(register.entries()[holder as usize - 1], Holder { number: holder, balance: 10 * holder });
        is_supply(&pool, &register);
    }
    refuses((pool, ring.clone()), &register, Refusal::RegisterFull, |pool, ring, register| {
        pool.deposit_by(ring, register, 257, 1_000, MOST)
    });
    for holder in 2..=256 {
        pool.withdraw_by(&mut ring, &mut register, holder, 10 * holder, [0, 0]).expect("all that he owns");
        assert_eq!(register.balance(holder), Ok(0));
        is_supply(&pool, &register);
    }
    assert_eq!(register.balance(1), Ok(1_999_900));
}

#[test]
fn a_register_has_1_to_256_entries_and_each_number_once() {
    let is_none = |entries: &[Holder]| {
        assert_eq!(Register::from_entries(entries), Err(Refusal::InvalidInput), "{entries:?}");
    };
    for entries in [0, 257, usize::MAX] {
        assert_eq!(Register::new(entries), Err(Refusal::InvalidInput), "{entries}");
    }
    is_none(&[]);
    is_none(&[Holder::default(); 257]);
    is_none(&holders([(7, 10), (0, 1)]));
    is_none(&holders([(7, 10), (8, 0), (7, 1)]));
    for entries in [1, 256] {
        let register = Register::new(entries).expect("so many entries");
        assert_eq!(register.entries(), vec![Holder::default(); entries]);
    }
    register([(7, 0), (0, 0), (7, 10), (0, 0), (7, 0)]);
}

#[test]
fn a_number_twice_is_found_wherever_both_stand() {
    for difference in [1, 1_024, 1_000_003, (1 << 55) + 1] {
        let apart: Vec<[u64; 2]> = (1..=MOST_HOLDERS as u64).map(|turn| [turn * difference, 1]).collect();
        let number = |entries: &[[u64; 2]]| plain::balance(entries.as_flattened(), 1, &mut 0);
        assert_eq!(number(&apart), 0);
        for second in 1..MOST_HOLDERS {
            for first in 0..second {
                let mut entries = apart.clone();
                entries[second][0] = entries[first][0];
                assert_eq!(number(&entries), 3, "{difference}: {first} and {second}");
                entries[first][1] = 0;
                assert_eq!(number(&entries), 0, "{difference}: {first}, free, and {second}");
            }
        }
    }
}

#[test]
fn a_holder_without_an_entry_has_nothing() {
    let register = register([(8, 0), (7, 10), (9, 0), (9, u64::MAX), (0, 0)]);
    let balances = [7, 8, 9, 10, u64::MAX].map(|holder| register.balance(holder));
    assert_eq!(balances, [Ok(10), Ok(0), Ok(u64::MAX), Ok(0), Ok(0)]);
    assert_eq!(register.balance(0), Err(Refusal::InvalidInput));
}

/// What a call over plain numbers answers on the worked pool, which is closed. It is refused: it writes a
/// receipt of its number and zeros, and nothing else.
fn refused(
    list: &[u64],
    call: impl FnOnce(&mut PoolWords, &mut RingWords, &mut ReceiptWords, &mut [u64]) -> u64,
) -> u64 {
    let (mut pool, mut ring) = opened();
    pool.status = 7;
    let before = (pool, ring.clone(), list);
    let (mut receipt, mut lent) = (Receipt { number: 7, ..Receipt::default() }, list.to_vec());
    let number = call(pool.words_mut(), ring.words_mut(), receipt.words_mut(), &mut lent);
    assert_eq!((pool, ring, &lent[..]), before);
    assert_eq!(receipt, Receipt { number, ..Receipt::default() });
    number
}

/// What an opening without tokens, a deposit, a withdrawal and a reading answer.
fn answers(list: &[u64], holder: u64) -> [u64; 4] {
    let opening = refused(list, |pool, ring, receipt, list| {
        plain::open_registered(pool, ring, receipt, &[0; 16], list, holder)
    });
    let deposit = refused(list, |pool, ring, receipt, list| {
        plain::deposit_registered(pool, ring, receipt, list, holder, 0, MOST)
    });
    let withdrawal = refused(list, |pool, ring, receipt, list| {
        plain::withdraw_registered(pool, ring, receipt, list, holder, 0, MOST)
    });
    let mut balance = 7;
    let reading = plain::balance(list, holder, &mut balance);
    assert!(reading == 0 || balance == 7);
    [opening, deposit, withdrawal, reading]
}

#[test]
fn what_is_no_register_is_refused_first() {
    for list in [&[0, 0][..], &[0; 512], &[9, 0, 9, 5, 9, 0], &[0, 0, 7, 1, 8, u64::MAX]] {
        assert_eq!(answers(list, 8), [6, 1, 1, 0], "{list:?}");
        assert_eq!(answers(list, 0), [3; 4], "holder 0, {list:?}");
    }
    for list in [&[][..], &[0; 514], &[0, 1], &[7, 10, 0, 0, 0, 5], &[9, 1, 7, 0, 9, 2]] {
        assert_eq!(answers(list, 8), [3; 4], "{list:?}");
    }
    for odd in [&[0][..], &[7, 10, 8], &[0; 511]] {
        assert_eq!(answers(odd, 8), [3; 4], "{odd:?}");
    }
}
