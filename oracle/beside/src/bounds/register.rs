//! Document 02 (g): the list and the holder, tested before all else; the holder's entry, tested last; and
//! which entry a call writes.

use super::charges::{with as charged, ALL};
use super::*;
use crate::generator::registers::with;

pub fn bounds() -> Vec<Bound> {
    let named = [
        lengths(),
        odd_counts(),
        numbers(),
        holders(),
        credits(),
        new_holders(),
        debits(),
        opened(),
        first_in_openings(),
        first_in_deposits(),
        first_in_withdrawals(),
        last_in_deposits(),
        owners(),
    ];
    named.into_iter().flatten().collect()
}

/// LP that the calls below move, and the holder who moves them.
const LP: u64 = 5;
const HOLDER: u64 = 7;
/// Of the worked day's opening, less the locked LP.
const OPENERS: u64 = 1_999_900;

impl Bound {
    fn leaving_list(self, list: &[u64]) -> Bound {
        Bound { list: list.to_vec(), ..self }
    }
}

fn worked_opening() -> Case {
    opening([MILLION, 4 * MILLION], 0, 0, [2500, 120_000, 40_000, 0, 0])
}

fn deposit(pool: Pool, lp: u64) -> Case {
    on(pool, 4, &[lp, MOST, MOST])
}

/// The owner's LP is the register's.
fn withdrawal(pool: Pool, lp: u64) -> Case {
    on(pool, 5, &[lp, 0, 0, 0])
}

fn read(says: &str, number: u64, holder: u64, list: &[u64], balance: u64) -> Bound {
    let case = alone(40, &[&[holder], list].concat());
    Bound { shows: vec![("balance", balance)], ..bound(format!("balance, {says}"), number, case) }
}

/// A list that is refused, with each of the three calls and by reading.
fn refused(says: &str, holder: u64, list: &[u64]) -> Vec<Bound> {
    let calls = [worked_opening(), deposit(day(), LP), withdrawal(day(), LP)];
    let row = |call: &Case| bound(says, 3, with(call, holder, list)).leaving_list(list);
    calls.iter().map(row).chain([read(says, 3, holder, list, 0)]).collect()
}

/// A list in which the holder has this at a place, with each of the three calls and by reading.
fn accepted(says: &str, holder: u64, list: &[u64], place: usize) -> Vec<Bound> {
    let at = 2 * place + 1;
    let changed = |balance| {
        let mut after = list.to_vec();
        after[at] = balance;
        after
    };
    let mut opened = vec![0; list.len()];
    (opened[0], opened[1]) = (holder, OPENERS);
    vec![
        bound(says, 0, with(&worked_opening(), holder, list)).leaving_list(&opened),
        bound(says, 0, with(&deposit(day(), LP), holder, list)).leaving_list(&changed(list[at] + LP)),
        bound(says, 0, with(&withdrawal(day(), LP), holder, list)).leaving_list(&changed(list[at] - LP)),
        read(says, 0, holder, list, list[at]),
    ]
}

/// So many entries, of which all have a balance; the holder's is last.
fn full(entries: u64) -> Vec<u64> {
    let mut list: Vec<u64> = (0..entries).flat_map(|place| [100 + place, 1]).collect();
    if let [.., number, balance] = &mut list[..] {
        (*number, *balance) = (HOLDER, 2 * LP);
    }
    list
}

/// From 1 to 256 entries, free ones or not.
fn lengths() -> Vec<Bound> {
    let mut out = refused("no entries", HOLDER, &[]);
    for entries in [1, 2, 255, 256] {
        let (mut free, last) = (vec![0; 2 * entries], entries - 1);
        (free[2 * last], free[2 * last + 1]) = (HOLDER, 2 * LP);
        out.extend(accepted(&format!("{entries} entries, the last of him"), HOLDER, &free, last));
        out.extend(accepted(&format!("{entries} entries, all held"), HOLDER, &full(entries as u64), last));
    }
    for entries in [257, 258, 512] {
        out.extend(refused(&format!("{entries} entries, all held"), HOLDER, &full(entries)));
        let free = vec![0; 2 * entries as usize];
        out.extend(refused(&format!("{entries} entries of zeros"), HOLDER, &free));
    }
    out
}

/// Half an entry more.
fn odd_counts() -> Vec<Bound> {
    let mut out = vec![];
    for entries in [0, 1, 2, 255, 256] {
        for half in [0, HOLDER, 3] {
            let list = [&full(entries)[..], &[half]].concat();
            out.extend(refused(&format!("{} numbers", list.len()), HOLDER, &list));
        }
    }
    out
}

/// A number 0 or a number twice, among the entries with a balance and among the others, at every pair of
/// places of a list of four and at the ends of one of 256.
fn numbers() -> Vec<Bound> {
    let mut out = vec![];
    for (entries, places) in [(4, &[0, 1, 2, 3][..]), (256, &[0, 127, 255])] {
        for (&one, &other) in places.iter().flat_map(|one| places.iter().map(move |other| (one, other))) {
            out.extend(if one == other { zero_at(entries, one) } else { twice_at(entries, one, other) });
        }
    }
    out
}

/// Entries of other holders, with the holder's beside these places.
fn others(entries: u64, places: &[usize]) -> (Vec<u64>, usize) {
    let mut list: Vec<u64> = (0..entries).flat_map(|place| [100 + place, 1]).collect();
    let own = (0..entries as usize).find(|place| !places.contains(place)).expect("a place is left");
    (list[2 * own], list[2 * own + 1]) = (HOLDER, 2 * LP);
    (list, own)
}

fn zero_at(entries: u64, place: usize) -> Vec<Bound> {
    let (mut list, own) = others(entries, &[place]);
    list[2 * place] = 0;
    let mut out = refused(&format!("number 0 with balance 1 at {place} of {entries}"), HOLDER, &list);
    list[2 * place + 1] = MOST;
    out.extend(refused(&format!("number 0 with balance 2^64 - 1 at {place} of {entries}"), HOLDER, &list));
    list[2 * place + 1] = 0;
    out.extend(accepted(&format!("number 0 with balance 0 at {place} of {entries}"), HOLDER, &list, own));
    out
}

fn twice_at(entries: u64, one: usize, other: usize) -> Vec<Bound> {
    let (mut list, own) = others(entries, &[one, other]);
    let mut out = vec![];
    for number in [1, 100, MOST] {
        (list[2 * one], list[2 * other]) = (number, number);
        (list[2 * one + 1], list[2 * other + 1]) = (1, MOST);
        let says = format!("number {number} twice, at {one} and {other} of {entries}");
        out.extend(refused(&says, HOLDER, &list));
        list[2 * other + 1] = 0;
        out.extend(accepted(&format!("{says}, once free"), HOLDER, &list, own));
    }
    // The holder's own number.
    (list[2 * one], list[2 * one + 1]) = (HOLDER, 1);
    out.extend(refused(&format!("the holder twice, at {one} and {own} of {entries}"), HOLDER, &list));
    list[2 * one + 1] = 0;
    out.extend(accepted(&format!("the holder twice, free at {one} of {entries}"), HOLDER, &list, own));
    out
}

fn holders() -> Vec<Bound> {
    let mut out = refused("holder 0", 0, &[0, 0]);
    out.extend(refused("holder 0, all held", 0, &full(3)));
    for holder in [1, 2, 255, 256, 257, HALF, MOST] {
        out.extend(accepted(&format!("holder {holder}"), holder, &[holder, 2 * LP, 9, 0], 0));
    }
    out
}

/// A credit to 2^64 - 1 and past it.
fn credits() -> Vec<Bound> {
    let steps = [(LP, MOST - LP), (1000, MOST - 1000), (MILLION, MOST - MILLION), (3, MOST - 3)];
    let mut out = vec![];
    for (lp, balance) in steps {
        for (list, at) in [([HOLDER, balance, 9, 1], 1), ([9, 0, HOLDER, balance], 3)] {
            let case = |list: &[u64]| with(&deposit(day(), lp), HOLDER, list);
            let mut after = list;
            after[at] = MOST;
            out.push(bound(format!("a credit of {lp} to 2^64 - 1"), 0, case(&list)).leaving_list(&after));
            let mut past = list;
            past[at] += 1;
            out.push(bound(format!("a credit of {lp} past it"), 8, case(&past)).leaving_list(&past));
            past[at] = MOST;
            out.push(bound(format!("a credit of {lp} to all"), 8, case(&past)).leaving_list(&past));
        }
    }
    out
}

/// A list before a call, and after it where it is not refused.
type Lists = (&'static str, &'static [u64], Option<&'static [u64]>);

/// The first entry of balance 0, whichever number it has; 16 where there is none.
fn new_holders() -> Vec<Bound> {
    let rows: [Lists; 16] = [
        ("one entry, free", &[0, 0], Some(&[HOLDER, LP])),
        ("one entry, free, of another", &[9, 0], Some(&[HOLDER, LP])),
        ("one entry, free, of his", &[HOLDER, 0], Some(&[HOLDER, LP])),
        ("one entry, held", &[9, 1], None),
        ("both free", &[0, 0, 0, 0], Some(&[HOLDER, LP, 0, 0])),
        ("both free, the second of his", &[9, 0, HOLDER, 0], Some(&[HOLDER, LP, HOLDER, 0])),
        ("both free and of his", &[HOLDER, 0, HOLDER, 0], Some(&[HOLDER, LP, HOLDER, 0])),
        ("the first free", &[9, 0, 8, 1], Some(&[HOLDER, LP, 8, 1])),
        ("the second free", &[9, 1, 8, 0], Some(&[9, 1, HOLDER, LP])),
        ("both held", &[9, 1, 8, MOST], None),
        ("three free", &[6, 0, 5, 0, 4, 0], Some(&[HOLDER, LP, 5, 0, 4, 0])),
        ("the second and third free", &[6, 1, 5, 0, 4, 0], Some(&[6, 1, HOLDER, LP, 4, 0])),
        ("the second and third free, of his", &[6, 1, 5, 0, 7, 0], Some(&[6, 1, HOLDER, LP, 7, 0])),
        ("the first and third free, of his", &[6, 0, 5, 1, 7, 0], Some(&[HOLDER, LP, 5, 1, 7, 0])),
        ("the third free", &[6, 1, 5, 1, 4, 0], Some(&[6, 1, 5, 1, HOLDER, LP])),
        ("all three held", &[6, 1, 5, 1, 4, 1], None),
    ];
    let row = |says: String, list: &[u64], after: Option<&[u64]>| {
        let number = if after.is_some() { 0 } else { 16 };
        bound(says, number, with(&deposit(day(), LP), HOLDER, list)).leaving_list(after.unwrap_or(list))
    };
    let mut out: Vec<Bound> =
        rows.map(|(says, list, after)| row(format!("a new holder, {says}"), list, after)).into();
    for entries in [255, 256] {
        let mut held: Vec<u64> = (0..entries).flat_map(|place| [100 + place, 1]).collect();
        out.push(row(format!("a new holder, all {entries} held"), &held, None));
        let last = held.len() - 2;
        held[last + 1] = 0;
        let after = [&held[..last], &[HOLDER, LP]].concat();
        out.push(row(format!("a new holder, the last of {entries} free"), &held, Some(&after)));
    }
    out
}

/// To 0 the entry keeps its number; one more than the entry has is 10.
fn debits() -> Vec<Bound> {
    let row = |says: &str, number, lp, list: &[u64], after: &[u64]| {
        bound(says, number, with(&withdrawal(day(), lp), HOLDER, list)).leaving_list(after)
    };
    let stays = |says, lp, list: &[u64]| row(says, 10, lp, list, list);
    vec![
        row("all but 1 of the entry", 0, 5, &[9, 4, HOLDER, 6], &[9, 4, HOLDER, 1]),
        row("all of the entry", 0, 5, &[9, 4, HOLDER, 5], &[9, 4, HOLDER, 0]),
        row("all of the only entry", 0, 5, &[HOLDER, 5], &[HOLDER, 0]),
        row("of 2^64 - 1", 0, 5, &[HOLDER, MOST, 9, MOST], &[HOLDER, MOST - 5, 9, MOST]),
        row("behind a free entry of his", 0, 5, &[HOLDER, 0, HOLDER, 5], &[HOLDER, 0, HOLDER, 0]),
        stays("one more than the entry", 5, &[9, 40, HOLDER, 4]),
        stays("the entry is free", 5, &[HOLDER, 0, 9, 40]),
        stays("no entry", 5, &[9, 40, 8, 40]),
        stays("LP 0", 0, &[HOLDER, 5]),
        stays("LP 0, no entry", 0, &[9, 5]),
    ]
}

/// The supply less 100, first in a list of zeros.
fn opened() -> Vec<Bound> {
    let of = |amounts| opening(amounts, 0, 0, [2500, 120_000, 40_000, 0, 0]);
    let rows = [([101, 101], 1), ([1, 10_201], 1), ([102, 102], 2), ([MOST, MOST], MOST - 100)];
    let mut out = vec![];
    for (amounts, balance) in rows {
        for old in [&[0, 0][..], &[9, 4], &[9, 4, 8, 0], &[HOLDER, MOST, 9, 1, 0, 0], &[5, 0, HOLDER, 3]] {
            let mut after = vec![0; old.len()];
            (after[0], after[1]) = (HOLDER, balance);
            let says = format!("an opening of {} by {} with {old:?}", amounts[0], amounts[1]);
            out.push(bound(says, 0, with(&of(amounts), HOLDER, old)).leaving_list(&after));
        }
    }
    out
}

/// Lists that are refused, and a holder.
fn faults() -> [(&'static str, u64, Vec<u64>); 6] {
    [
        ("no entries", HOLDER, vec![]),
        ("257 entries", HOLDER, vec![0; 514]),
        ("an odd count", HOLDER, vec![HOLDER, 5, 0]),
        ("a number 0", HOLDER, vec![HOLDER, 5, 0, 1]),
        ("a number twice", HOLDER, vec![9, 5, 9, 1]),
        ("holder 0", 0, vec![HOLDER, 5]),
    ]
}

/// A call that is refused with this number on each of these registers, and with 3 on what is none.
fn first(says: &str, number: u64, plain: &Case, registers: &[(u64, Vec<u64>)]) -> Vec<Bound> {
    let row = |more: &str, number, holder, list: &[u64]| {
        bound(format!("{says}, {more}"), number, with(plain, holder, list)).leaving_list(list)
    };
    let refused = faults().map(|(more, holder, list)| row(more, 3, holder, &list));
    let own = registers.iter().map(|(holder, list)| row("on a register", number, *holder, list));
    refused.into_iter().chain(own).collect()
}

fn first_in_openings() -> Vec<Bound> {
    let day = [2500, 120_000, 40_000, 0, 0];
    let past = [MILLION, 0, 0, 0, 0];
    let registers = [(HOLDER, vec![HOLDER, MOST]), (HOLDER, vec![9, 4, 8, 0])];
    let rows = [
        ("amounts 0", 6, opening([0, 0], 0, 0, day)),
        ("model 3", 9, opening([101, 101], 3, 0, day)),
        ("enabled 2", 3, opening([101, 101], 0, 2, day)),
        ("rates past their limits", 3, opening([101, 101], 0, 0, past)),
        ("supply 100", 13, opening([100, 100], 0, 0, day)),
    ];
    rows.into_iter().flat_map(|(says, number, plain)| first(says, number, &plain, &registers)).collect()
}

/// Deposits that each of their own tests refuses, in the order of the tests.
fn refused_deposits() -> Vec<(&'static str, u64, Case)> {
    let [sum, vault] = counters_past();
    let pool = |vaults, supply| Pool { vaults, supply, ..day() };
    let full = Pool { fund: [MOST - 14, 0], ..pool([MOST - 4, 10], 10) };
    let all_charged = charged(day(), [ALL, ALL]);
    vec![
        ("closed", 1, deposit(Pool { status: 1, ..day() }, LP)),
        ("LP 0", 10, deposit(day(), 0)),
        ("counters' sum 2^64", 8, deposit(sum, LP)),
        ("a counter above its vault", 7, deposit(vault, LP)),
        ("supply 0", 4, deposit(pool([10, 10], 0), LP)),
        ("an amount of 0", 4, deposit(day(), 1)),
        ("an amount past u64", 11, deposit(pool([2, 1], 1), HALF)),
        ("no u64 can be sent", 14, deposit(all_charged, LP)),
        ("above a maximum", 2, on(day(), 4, &[LP, 2, MOST])),
        ("a vault past u64", 8, deposit(full, LP)),
        ("the supply past u64", 11, deposit(pool([1 << 40, 1 << 40], MOST - (1 << 30) + 1), 1 << 30)),
    ]
}

fn first_in_deposits() -> Vec<Bound> {
    // He has an entry, is a new holder in a full list, and has so much that no credit fits.
    let registers =
        [(HOLDER, vec![HOLDER, 5, 0, 0]), (HOLDER, vec![9, 5, 8, 4]), (HOLDER, vec![HOLDER, MOST, 9, 1])];
    let rows = refused_deposits().into_iter();
    rows.flat_map(|(says, number, plain)| first(says, number, &plain, &registers)).collect()
}

fn first_in_withdrawals() -> Vec<Bound> {
    let [sum, vault] = counters_past();
    let pool = |vaults, supply| Pool { vaults, supply, ..day() };
    let hundred = pool([1000, 1000], 100);
    let has_all = [(HOLDER, vec![HOLDER, MOST]), (HOLDER, vec![9, 4, HOLDER, MOST])];
    let has_less = [(HOLDER, vec![HOLDER, LP - 1]), (HOLDER, vec![9, MOST]), (HOLDER, vec![0, 0])];
    let rows = [
        ("closed", 1, withdrawal(Pool { status: 2, ..day() }, LP), &has_all[..]),
        ("closed, above the owner's", 1, withdrawal(Pool { status: 2, ..day() }, LP), &has_less),
        ("LP 0", 10, withdrawal(day(), 0), &has_all),
        ("above the owner's", 10, withdrawal(day(), LP), &has_less),
        ("above the owner's, counters' sum 2^64", 10, withdrawal(sum, LP), &has_less),
        ("counters' sum 2^64", 8, withdrawal(sum, LP), &has_all),
        ("a counter above its vault", 7, withdrawal(vault, LP), &has_all),
        ("supply 0", 4, withdrawal(pool([10, 10], 0), LP), &has_all),
        ("an amount past u64", 11, withdrawal(pool([2, 1], 1), HALF), &has_all),
        ("below a minimum", 2, on(day(), 5, &[LP, 0, MOST, 0]), &has_all),
        ("above the supply", 11, withdrawal(hundred, 101), &has_all),
        ("99 LP left", 15, withdrawal(Pool { supply: 104, ..hundred }, LP), &has_all),
    ];
    rows.into_iter()
        .flat_map(|(says, number, plain, registers)| first(says, number, &plain, registers))
        .collect()
}

/// Behind all of a deposit's own tests: where they pass, a credit past u64 is 8 and a full list 16. Both
/// can't fail: a new holder's credit is his LP. Nothing of the pool has moved.
fn last_in_deposits() -> Vec<Bound> {
    let at_supply = |supply| Pool { vaults: [1 << 40, 1 << 40], supply, ..day() };
    let pools = [
        ("", day(), LP),
        (", the supply at 2^64 - 1", at_supply(MOST - (1 << 30)), 1 << 30),
        (", charged", charged(day(), [[100, 50], [25, MOST]]), LP),
        (
            ", all bits but 0 set, before the open time",
            Pool { status: MOST - 1, open_time: MOST, ..day() },
            LP,
        ),
    ];
    let mut out = vec![];
    for (more, pool, lp) in pools {
        let row = |says: &str, number, list: &[u64], after: &[u64]| {
            let supply = if number == 0 { pool.supply + lp } else { pool.supply };
            let case = with(&deposit(pool, lp), HOLDER, list);
            let bound = bound(format!("{says}{more}"), number, case).leaving_list(after);
            Bound { shows: vec![("supply", supply)], ..bound }
        };
        let past = [HOLDER, MOST - lp + 1];
        out.extend([
            row("a credit to 2^64 - 1", 0, &[HOLDER, MOST - lp], &[HOLDER, MOST]),
            row("a credit past it", 8, &past, &past),
            row("full, of him", 0, &[9, 1, HOLDER, 1], &[9, 1, HOLDER, 1 + lp]),
            row("full, of others", 16, &[9, 1, 8, 1], &[9, 1, 8, 1]),
            row("full of others, who have all", 16, &[9, MOST, 8, MOST], &[9, MOST, 8, MOST]),
        ]);
    }
    out
}

/// A withdrawal's owner has the entry's balance and no more, whatever the supply, and no less.
fn owners() -> Vec<Bound> {
    let pool = |supply| Pool { vaults: [2 * MILLION, 4 * MILLION], supply, ..day() };
    let mut out = vec![];
    for (supply, lp) in [(105, 5), (2 * MILLION, 1_999_900), (2 * MILLION, 1)] {
        let row = |balance: u64, number| {
            let list = [9, MOST, HOLDER, balance];
            let left = if number == 0 { balance - lp } else { balance };
            let says = format!("{lp} of {supply} LP by one who has {balance}");
            let bound = bound(says, number, with(&withdrawal(pool(supply), lp), HOLDER, &list));
            bound.leaving_list(&[9, MOST, HOLDER, left])
        };
        out.extend([row(lp - 1, 10), row(lp, 0), row(lp + 1, 0), row(MOST, 0)]);
    }
    out
}
