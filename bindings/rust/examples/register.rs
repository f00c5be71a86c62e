//! A register of three entries: holders come and go, and take the entries that others left. Each answer, and
//! the list after it, is checked.

use cp_swap::{Answer, Holder, Opening, Pool, Rates, Refusal, Register, Ring, LOCK_LP_AMOUNT};
use Kind::{Deposit, Withdrawal};

enum Kind {
    Deposit,
    Withdrawal,
}

/// Of so many LP tokens, by this holder; its refusal if it has one, and the list's numbers and balances then.
type Call = (Kind, u64, u64, Option<Refusal>, [(u64, u64); 3]);

const CALLS: [Call; 10] = [
    (Deposit, 1_000, 8, None, [(7, 1_999_900), (8, 1_000), (0, 0)]),
    (Deposit, 500, 9, None, [(7, 1_999_900), (8, 1_000), (9, 500)]),
    (Deposit, 500, 10, Some(Refusal::RegisterFull), [(7, 1_999_900), (8, 1_000), (9, 500)]),
    (Withdrawal, 1_000, 8, None, [(7, 1_999_900), (8, 0), (9, 500)]),
    (Withdrawal, 1, 8, Some(Refusal::RequireViolated), [(7, 1_999_900), (8, 0), (9, 500)]),
    (Deposit, 500, 10, None, [(7, 1_999_900), (10, 500), (9, 500)]),
    (Deposit, 5, 8, Some(Refusal::RegisterFull), [(7, 1_999_900), (10, 500), (9, 500)]),
    (Withdrawal, 500, 10, None, [(7, 1_999_900), (10, 0), (9, 500)]),
    (Deposit, 5, 8, None, [(7, 1_999_900), (8, 5), (9, 500)]),
    (Withdrawal, 5, 0, Some(Refusal::InvalidInput), [(7, 1_999_900), (8, 5), (9, 500)]),
];

pub(crate) fn main() -> Result<(), Refusal> {
    let (mut pool, mut ring, mut register) = (Pool::default(), Ring::default(), Register::new(3)?);
    let rates = Rates { trade: 2_500, protocol: 120_000, fund: 40_000, ..Rates::default() };
    let opening = Opening { amounts: [1_000_000, 4_000_000], rates, ..Opening::default() };

    let answer = pool.open_by(&mut ring, &mut register, 7, &opening);
    show("opening by 7", answer, None, &register, [(7, 1_999_900), (0, 0), (0, 0)]);
    for (kind, lp, holder, refusal, entries) in CALLS {
        let (name, answer) = match kind {
            Deposit => ("deposit", pool.deposit_by(&mut ring, &mut register, holder, lp, [u64::MAX; 2])),
            Withdrawal => ("withdrawal", pool.withdraw_by(&mut ring, &mut register, holder, lp, [0, 0])),
        };
        show(&format!("{name} of {lp} by {holder}"), answer, refusal, &register, entries);
    }

    let mut held = LOCK_LP_AMOUNT;
    for holder in 7..=10 {
        let balance = register.balance(holder)?;
        println!("{holder} holds {balance}");
        held += balance;
    }
    println!("with the locked {LOCK_LP_AMOUNT} that is {held}, the supply {}", pool.supply);
    assert_eq!(held, pool.supply);
    Ok(())
}

fn show(call: &str, answer: Answer, refusal: Option<Refusal>, register: &Register, entries: [(u64, u64); 3]) {
    match answer.err() {
        None => print!("{call}: accepted;"),
        Some(refusal) => print!("{call}: refused with {};", refusal.number()),
    }
    for Holder { number, balance } in register.entries() {
        print!(" ({number}, {balance})");
    }
    println!();
    assert_eq!(answer.err(), refusal);
    assert_eq!(register.entries(), entries.map(|(number, balance)| Holder { number, balance }));
}
