//! Document 02 (g): the worked list of calls with a register, and what each test refuses.

use super::*;
use crate::generator::registers::with;

const MOST: u64 = u64::MAX;

fn step(says: &'static str, case: Case, number: u64, list: &[u64]) -> Edge {
    Edge { list: list.to_vec(), ..edge(says, case, number, &[]) }
}

/// Deposits and withdrawals take any amount of tokens. The owner's LP is not given: it is the register's.
fn deposit(state: &State, lp: u64) -> Case {
    Case::of_call(state, 4, &[lp, MOST, MOST])
}

fn withdrawal(state: &State, lp: u64) -> Case {
    Case::of_call(state, 5, &[lp, 0, 0, 0])
}

/// A call of the worked list: its kind and LP, the holder, the number, and the list after it.
type Step = (&'static str, u64, u64, u64, u64, [u64; 6]);

/// A list of three from the worked opening on, each call with what the one before it left.
pub fn worked() -> Vec<Edge> {
    let opening = opening([1_000_000, 4_000_000], 0, 0, RATES);
    let opened = [7, 1_999_900, 0, 0, 0, 0];
    let steps: [Step; 10] = [
        ("deposit of 1,000 by 8 takes the second entry", 44, 1000, 8, 0, [7, 1_999_900, 8, 1000, 0, 0]),
        ("of 500 by 9 the third", 44, 500, 9, 0, [7, 1_999_900, 8, 1000, 9, 500]),
        ("of 500 by 10 is 16", 44, 500, 10, 16, [7, 1_999_900, 8, 1000, 9, 500]),
        ("withdrawal of 1,000 by 8 leaves (8, 0)", 45, 1000, 8, 0, [7, 1_999_900, 8, 0, 9, 500]),
        ("of 1 by 8 is 10", 45, 1, 8, 10, [7, 1_999_900, 8, 0, 9, 500]),
        ("deposit of 500 by 10 takes that entry", 44, 500, 10, 0, [7, 1_999_900, 10, 500, 9, 500]),
        ("of 5 by 8 is 16", 44, 5, 8, 16, [7, 1_999_900, 10, 500, 9, 500]),
        ("withdrawal of 500 by 10 frees it", 45, 500, 10, 0, [7, 1_999_900, 10, 0, 9, 500]),
        ("deposit of 5 by 8 takes it again", 44, 5, 8, 0, [7, 1_999_900, 8, 5, 9, 500]),
        ("withdrawal of 5 by 0 is 3", 45, 5, 0, 3, [7, 1_999_900, 8, 5, 9, 500]),
    ];
    let (mut state, mut list) = (after(&opening), opened);
    let mut edges = vec![step("opening by 7 on a list of three", with(&opening, 7, &[0; 6]), 0, &opened)];
    for (says, kind, lp, holder, number, after) in steps {
        let plain = if kind == 44 { deposit(&state, lp) } else { withdrawal(&state, lp) };
        let case = with(&plain, holder, &list);
        state = model::register::run(&state, &case).after.state;
        list = after;
        edges.push(step(says, case, number, &after));
    }
    edges
}

/// The first test and the last two, and what a list needs not.
pub fn refused() -> Vec<Edge> {
    let worked = opening([1_000_000, 4_000_000], 0, 0, RATES);
    let state = after(&worked);
    let least = opening([101, 101], 0, 0, RATES);
    let empty = opening([0, 0], 0, 0, RATES);
    let (credit, debit) = (deposit(&state, 5), withdrawal(&state, 5));
    let on_list = |says, plain: &Case, holder, number, list: &[u64], after: &[u64]| {
        step(says, with(plain, holder, list), number, after)
    };
    let stays =
        |says, plain: &Case, holder, number, list: &[u64]| on_list(says, plain, holder, number, list, list);
    vec![
        on_list("opening clears old entries", &least, 4, 0, &[3, 9, 4, 0, 5, MOST], &[4, 1, 0, 0, 0, 0]),
        stays("opening on a list with 3 twice is 3", &worked, 7, 3, &[3, 9, 3, 9]),
        stays("opening of 0 by 0 with holder 0 is 3", &empty, 0, 3, &[3, 9]),
        stays("opening of 0 by 0 on a register is 6", &empty, 7, 6, &[3, 9]),
        stays("deposit with a list of no entries is 3", &credit, 7, 3, &[]),
        stays("deposit with three numbers is 3", &credit, 7, 3, &[7, 9, 0]),
        stays("deposit with number 0 and a balance is 3", &credit, 7, 3, &[0, 1, 7, 9]),
        on_list("deposit with number 0 and none", &credit, 7, 0, &[0, 0, 7, 9], &[0, 0, 7, 14]),
        stays("deposit with 8 twice is 3", &credit, 7, 3, &[8, 1, 7, 9, 8, 2]),
        on_list("with 8 twice, once free", &credit, 7, 0, &[8, 1, 7, 9, 8, 0], &[8, 1, 7, 14, 8, 0]),
        on_list("deposit to 2^64 - 1", &credit, 7, 0, &[7, MOST - 5], &[7, MOST]),
        stays("deposit past 2^64 - 1 is 8", &credit, 7, 8, &[7, MOST - 4]),
        on_list("the first free entry, not his number's", &credit, 7, 0, &[9, 0, 7, 0], &[7, 5, 7, 0]),
        stays("withdrawal by one without an entry is 10", &debit, 8, 10, &[7, 9]),
        stays("withdrawal of one more than the entry is 10", &debit, 7, 10, &[7, 4]),
        on_list("withdrawal of all of the entry", &debit, 7, 0, &[7, 5], &[7, 0]),
    ]
}

/// A balance that is read.
pub fn balances() -> Vec<Edge> {
    let read = |says, holder, list: &[u64], number, balance| {
        let case = Case { kind: 40, columns: [&[holder], list].concat() };
        edge(says, case, number, &[("balance", balance)])
    };
    vec![
        read("balance of 8 is 5", 8, &[7, 9, 8, 5], 0, 5),
        read("balance of 8 is 5, behind a free entry of 8", 8, &[8, 0, 8, 5], 0, 5),
        read("balance of 9, who has no entry, is 0", 9, &[7, 9, 8, 5], 0, 0),
        read("balance of 0 is refused with 3", 0, &[0, 0], 3, 0),
        read("balance in a list of no entries is 3", 8, &[], 3, 0),
    ]
}
