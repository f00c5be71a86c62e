//! Registers of holders, as the calls are lent them.

use beside::random::Random;
use record::{Call, LOCKED_LP};

/// Numbers that fall do so from here.
const FIRST: u64 = 1_000;

/// Which numbers the entries have; no two have the same.
#[derive(Clone, Copy, PartialEq, Eq)]
pub enum Numbers {
    /// 1, 2, 3 and so on.
    InTurn,
    /// Any of 64 bits.
    Random,
    /// Multiples of 1,024, the largest first.
    Multiples,
    /// Worked out from the sum of the balances, so that the port gives all of them one mark.
    OneMark,
}

/// Who calls.
#[derive(Clone, Copy, PartialEq, Eq)]
pub enum Who {
    /// The holder of the last entry; every entry has a balance.
    Last,
    /// A new holder, who finds the last entry free and no other.
    New,
    /// A new holder, who finds no entry free.
    NoRoom,
}

/// A list of entries, each a number and a balance, and the holder who calls.
#[derive(Clone)]
pub struct Register {
    pub entries: Vec<[u64; 2]>,
    pub holder: u64,
}

impl Numbers {
    pub fn name(self) -> &'static str {
        match self {
            Numbers::InTurn => "in turn",
            Numbers::Random => "random",
            Numbers::Multiples => "multiples",
            Numbers::OneMark => "one mark",
        }
    }

    /// From 1, and another at each place.
    fn at(self, random: &mut Random, place: usize) -> u64 {
        let turn = place as u64 + 1;
        let back = FIRST - turn;
        match self {
            Numbers::InTurn => turn,
            // The lowest nine bits keep them apart.
            Numbers::Random => random.word() >> 9 << 9 | turn,
            Numbers::Multiples => back << 10,
            Numbers::OneMark => back << 32,
        }
    }
}

impl Register {
    /// The balances and what is locked are the supply, but for the free entry's; the last is at least a
    /// third of it.
    pub fn drawn(random: &mut Random, count: usize, numbers: Numbers, who: Who, supply: u64) -> Register {
        let most = supply / 2 / count as u64;
        let mut entries: Vec<[u64; 2]> =
            (0..count).map(|place| [numbers.at(random, place), 1 + random.below(most)]).collect();
        let last = count - 1;
        let others: u64 = entries[..last].iter().map(|[_, balance]| balance).sum();
        entries[last][1] = if who == Who::New { 0 } else { supply - LOCKED_LP - others };
        if numbers == Numbers::OneMark {
            share_a_mark(&mut entries);
        }
        let holder = if who == Who::Last { entries[last][0] } else { numbers.at(random, count) };
        Register { entries, holder }
    }

    /// What the last entry's holder owns.
    pub fn owned(&self) -> u64 {
        self.entries.last().map_or(0, |[_, balance]| *balance)
    }

    /// The list after an accepted call of its holder, which leaves this supply.
    pub fn after(&self, call: &Call, supply: u64) -> Vec<[u64; 2]> {
        let mut entries = self.entries.clone();
        let last = entries.len() - 1;
        match *call {
            Call::Deposit { lp, .. } => entries[last] = [self.holder, self.owned() + lp],
            Call::Withdrawal { lp, .. } => entries[last] = [self.holder, self.owned() - lp],
            _ => {
                entries.fill([0, 0]);
                entries[0] = [self.holder, supply - LOCKED_LP];
            }
        }
        entries
    }
}

/// Moves each number on to the next one of the first mark, by the arithmetic of
/// crates/register/src/marks.rt.
fn share_a_mark(entries: &mut [[u64; 2]]) {
    const SALTS: u64 = 2_147_483_646;
    const STIR: u64 = 1_640_531_527;
    const PRIME: u64 = 4_294_967_311;
    let sum: u64 = entries.iter().map(|[_, balance]| balance).sum();
    let folded = |n: u64| (n >> 32) + (n & 0xffff_ffff);
    let salt = folded(sum) * STIR % SALTS + 1;
    let itself = |n: u64| n * (n & 0x7fff_ffff);
    let mark = |number: u64| {
        let (low, high) = (number & 0xffff_ffff, number >> 32);
        let mixed = (STIR + low * salt + high * (salt * salt % (SALTS + 1))) % PRIME;
        itself(folded(itself(mixed))) >> 27 & 1_023
    };
    for [number, _] in entries {
        while mark(*number) != 0 {
            *number += 1;
        }
    }
}
