//! What the calls with a register met, and the claims of document 02 (g) on what the port left.

use crate::tally::Tally;
use model::After;
use port::Port;
use record::{Case, LOCKED_LP};
use std::collections::BTreeMap;

/// The greatest length of each class in entries, and its name.
pub const LENGTHS: [(usize, &str); 8] = [
    (0, "0"),
    (1, "1"),
    (2, "2"),
    (8, "3 to 8"),
    (254, "9 to 254"),
    (255, "255"),
    (256, "256"),
    (usize::MAX, "above"),
];

/// Why the first test refuses: no entries, above 256, an odd count of numbers, a number 0, a number twice, a
/// holder 0; the first of these that holds.
const FAULTS: usize = 6;

#[derive(Default)]
pub struct Registers {
    pub calls: u64,
    /// Of these, beside the same call without a register.
    pub beside: u64,
    pub faults: [u64; FAULTS],
    /// A credit past u64, and a new holder in a full list.
    pub past: u64,
    pub full: u64,
    /// New holders, those of them whose number stood in another free entry, and entries that were emptied.
    pub entered: u64,
    pub stood_elsewhere: u64,
    pub emptied: u64,
    /// Balances that were read, and refused.
    pub read: u64,
    pub unread: u64,
    /// Calls by the length of the list.
    pub lengths: [u64; 8],
    /// Lists of calls that keep a register, those of them in which other calls move LP too; points at which
    /// balances and supply were compared, and calls of which the balances were.
    pub lists: u64,
    pub mixed_lists: u64,
    pub points: u64,
    pub changes: u64,
}

impl Registers {
    pub fn count(&mut self, case: &Case, after: &After, holders: &[u64], without: Option<u64>) {
        let (holder, list) = case.register().expect("the call takes a register");
        self.calls += 1;
        self.beside += u64::from(without.is_some());
        let length = LENGTHS.iter().position(|(most, _)| list.len() / 2 <= *most);
        self.lengths[length.expect("the last class takes every length")] += 1;
        match (without, after.number) {
            (None, _) => self.faults[fault(list, holder)] += 1,
            (Some(0), 8) => self.past += 1,
            (_, 16) => self.full += 1,
            (_, 0) if case.kind == 44 => self.count_entered(holder, list, holders),
            (_, 0) if case.kind == 45 => {
                self.emptied += u64::from(!balances(holders).contains_key(&holder));
            }
            _ => {}
        }
    }

    fn count_entered(&mut self, holder: u64, before: &[u64], after: &[u64]) {
        let changed = before.iter().zip(after).position(|(before, after)| before != after);
        let entry = changed.map_or(0, |at| at / 2);
        if before[2 * entry + 1] == 0 {
            self.entered += 1;
            let mut others = before.chunks(2).enumerate().filter(|(place, _)| *place != entry);
            self.stood_elsewhere += u64::from(others.any(|(_, other)| other == [holder, 0]));
        }
    }

    pub fn read(&mut self, number: u64) {
        if number == 0 {
            self.read += 1;
        } else {
            self.unread += 1;
        }
    }
}

fn fault(list: &[u64], holder: u64) -> usize {
    let held: Vec<u64> = list.chunks_exact(2).filter(|entry| entry[1] > 0).map(|entry| entry[0]).collect();
    let twice = (1..held.len()).any(|at| held[..at].contains(&held[at]));
    let faults =
        [list.is_empty(), list.len() / 2 > 256, list.len() % 2 == 1, held.contains(&0), twice, holder == 0];
    faults.into_iter().position(|fault| fault).expect("the first test refuses one of these")
}

/// The holders' balances, of those who have one.
fn balances(list: &[u64]) -> BTreeMap<u64, u64> {
    list.chunks_exact(2).filter(|entry| entry[1] > 0).map(|entry| (entry[0], entry[1])).collect()
}

/// The register of a list of calls, as the port's last call with it left it.
pub struct Kept {
    pub list: Vec<u64>,
    /// Whether only calls with this register have moved LP since the opening.
    pub alone: bool,
}

impl Kept {
    /// After an accepted opening.
    pub fn opened(list: Vec<u64>, port: &Port, case: &Case, tally: &mut Tally) -> Kept {
        let opener = case.register().expect("it was opened with a register").0;
        let kept = Kept { list, alone: true };
        let supply = port.pool[SUPPLY];
        if balances(&kept.list) != BTreeMap::from([(opener, supply.wrapping_sub(LOCKED_LP))]) {
            tally.register_fault("the opener has not the supply less 100 alone", case);
        }
        kept
    }

    /// A call changes the balance of its holder only: by the receipt's LP, and not at all where it is refused.
    pub fn next(&mut self, list: Vec<u64>, port: &Port, case: &Case, tally: &mut Tally) {
        let holder = case.register().expect("the call takes the register").0;
        let mut expected = balances(&self.list);
        if port.receipt[0] == 0 {
            let balance = expected.remove(&holder).unwrap_or(0);
            let lp = port.receipt[LP];
            let balance = if case.kind == 44 { balance.wrapping_add(lp) } else { balance.wrapping_sub(lp) };
            if balance > 0 {
                expected.insert(holder, balance);
            }
        }
        if balances(&list) != expected {
            tally.register_fault("another's balance changes, or his by another amount", case);
        }
        tally.registers.changes += 1;
        self.list = list;
    }

    /// The balances and the locked 100 are the supply.
    pub fn check(&self, port: &Port, case: &Case, tally: &mut Tally) {
        if !self.alone {
            return;
        }
        let sum: u128 = self.list.chunks_exact(2).map(|entry| u128::from(entry[1])).sum();
        if sum + u128::from(LOCKED_LP) != u128::from(port.pool[SUPPLY]) {
            tally.register_fault("the balances plus 100 are not the supply", case);
        }
        tally.registers.points += 1;
    }
}

/// Where the record has the supply, and the receipt its LP.
const SUPPLY: usize = 8;
const LP: usize = 8;
