//! Registers of holders: by hand, with a fault or without, and those that a list of calls carries on.

use super::{hand, list, Draws};
use crate::random::Random;
use record::{Call, Case, POOL_LENGTH, WITH_REGISTER};

type Entry = [u64; 2];

/// Entries of a list by hand: few above all.
const LENGTHS: [u64; 10] = [1, 1, 2, 2, 2, 3, 3, 4, 5, 8];
const LONG_LENGTHS: [u64; 2] = [255, 256];
const LONG_ONE_IN: u64 = 12;
const ONE_TOO_MANY: usize = 257;
const FAULT_ONE_IN: u64 = 6;
const WILD_ONE_IN: u64 = 10;
/// One withdrawal in so many is by whoever is drawn, not by one who has LP.
const NO_HOLDER_ONE_IN: u64 = 6;

/// Cases without end.
pub fn cases(seed: u64) -> impl Iterator<Item = Case> {
    let mut random = Random::new(seed);
    std::iter::repeat_with(move || case(&mut random, Draws::MIXED))
}

/// A balance that is read, an opening, or a deposit or withdrawal by hand.
pub fn case(random: &mut Random, draws: Draws) -> Case {
    match random.below(8) {
        0 => reading(random),
        1 => {
            let opening = list::opening(random, draws);
            by_hand(random, &opening)
        }
        _ => {
            let plain = hand::lp_case(random, draws);
            by_hand(random, &plain)
        }
    }
}

/// A balance read from a register by hand.
pub fn reading(random: &mut Random) -> Case {
    let own = random.any();
    let (holder, list) = drawn(random, own, false);
    Case { kind: WITH_REGISTER, columns: [&[holder], &list[..]].concat() }
}

/// A call's case with a register.
pub fn with(plain: &Case, holder: u64, list: &[u64]) -> Case {
    let mut columns = plain.columns.clone();
    if plain.kind == 5 {
        // The owner's LP is the register's.
        columns.remove(POOL_LENGTH + 1);
    }
    columns.push(holder);
    columns.extend(list);
    Case { kind: plain.kind + WITH_REGISTER, columns }
}

/// A call's case with a register by hand. Where the holder has an entry, a withdrawal's owner has what he
/// has without one, and a deposit is often just within u64 or past it.
pub fn by_hand(random: &mut Random, plain: &Case) -> Case {
    let own = match plain.call() {
        Some(Call::Withdrawal { owned, .. }) => owned,
        Some(Call::Deposit { lp, .. }) if random.chance(3) => random.near(u64::MAX - lp),
        _ => random.any(),
    };
    let has_lp = plain.kind == 5 && !random.chance(NO_HOLDER_ONE_IN);
    let (holder, list) = drawn(random, own, has_lp);
    with(plain, holder, &list)
}

/// An opening's case with the list that the list of calls before it left, or with one by hand.
pub fn opened(random: &mut Random, plain: &Case, left: &[u64]) -> Case {
    if !left.is_empty() && random.chance(2) {
        with(plain, 1 + random.below(8), left)
    } else {
        by_hand(random, plain)
    }
}

/// The case of a deposit or withdrawal with the register that a list of calls carries on: by one who has
/// LP or by another. In a long list most deposits are by new holders, so that it fills.
pub fn entered(random: &mut Random, plain: &Case, list: &[u64]) -> Case {
    let entries: &[Entry] = list.as_chunks().0;
    let held: Vec<Entry> = entries.iter().copied().filter(|entry| entry[1] > 0).collect();
    let another_one_in = match plain.kind {
        4 if entries.len() > 8 => 1,
        4 => 2,
        _ => 16,
    };
    if held.is_empty() || random.chance(another_one_in) {
        let holder = match random.below(16) {
            0 => 0,
            1..8 => random.below(entries.len() as u64 + 4),
            _ => random.sized(),
        };
        return with(plain, holder, list);
    }
    let [holder, balance] = random.pick(&held);
    let mut case = with(plain, holder, list);
    if plain.kind == 5 {
        let lp = case.columns[POOL_LENGTH];
        case.columns[POOL_LENGTH] = match random.below(4) {
            0 => random.near(balance),
            1 | 2 => random.up_to(balance) >> random.below(8),
            _ => lp,
        };
    }
    case
}

/// A holder and a list in which he has this, if he has an entry; he mostly has one where he should.
fn drawn(random: &mut Random, own: u64, has_lp: bool) -> (u64, Vec<u64>) {
    if random.chance(WILD_ONE_IN) {
        return wild(random);
    }
    let mut entries = entries(random);
    let held: Vec<Entry> = entries.iter().copied().filter(|entry| entry[1] > 0).collect();
    let holder = match random.below(8) {
        _ if has_lp && !held.is_empty() => random.pick(&held)[0],
        0..5 => random.pick(&entries)[0],
        5 | 6 => entries.len() as u64 + 6 + random.below(3),
        _ => random.any(),
    };
    for entry in entries.iter_mut().filter(|entry| entry[0] == holder && entry[1] > 0) {
        entry[1] = own;
    }
    if random.chance(FAULT_ONE_IN) {
        spoilt(random, holder, entries)
    } else {
        (holder, entries.concat())
    }
}

/// Numbers from 1 in turn; in a list that is not full every third entry is free, whichever number it has.
fn entries(random: &mut Random) -> Vec<Entry> {
    let length = if random.chance(LONG_ONE_IN) { random.pick(&LONG_LENGTHS) } else { random.pick(&LENGTHS) };
    let (span, first) = (length.max(5), random.below(5));
    let full = random.chance(3);
    let mut entry = |place| {
        if !full && random.chance(3) {
            return [random.below(6), 0];
        }
        let balance = if random.chance(4) { random.near(u64::MAX) } else { random.any() };
        [1 + (first + place) % span, balance.max(1)]
    };
    (0..length).map(&mut entry).collect()
}

/// With one of the faults that are 3.
fn spoilt(random: &mut Random, holder: u64, mut entries: Vec<Entry>) -> (u64, Vec<u64>) {
    let places = entries.len() as u64;
    let (one, other) = (random.below(places) as usize, random.below(places) as usize);
    match random.below(6) {
        0 => return (0, entries.concat()),
        1 => entries.clear(),
        2 => entries.resize(ONE_TOO_MANY, [0, 0]),
        3 => entries[one] = [0, entries[one][1].max(1)],
        4 => {
            entries[other][1] = entries[other][1].max(1);
            entries[one] = [entries[other][0], entries[one][1].max(1)];
        }
        _ => {
            let mut list = entries.concat();
            list.pop();
            return (holder, list);
        }
    }
    (holder, entries.concat())
}

/// Few small numbers as they come.
fn wild(random: &mut Random) -> (u64, Vec<u64>) {
    let length = random.below(4);
    let mut entry = |_| [random.below(6), random.pick(&[0, 0, 1, 2, u64::MAX])];
    let list = (0..length).map(&mut entry).collect::<Vec<Entry>>().concat();
    (random.below(6), list)
}
