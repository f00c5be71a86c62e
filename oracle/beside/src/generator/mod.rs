//! Cases without end: pools by hand, lists of calls from openings, functions alone.

pub mod alone;
mod arguments;
pub mod charges;
pub mod grids;
pub mod hand;
pub mod list;
pub mod registers;
pub mod slices;
pub mod small;

use crate::random::Random;
use charges::Charges;
use grids::Grids;
use list::List;
use record::Case;

/// One division of an LP amount's product for so many cases of a seed, behind them all.
pub const DIVISION_ONE_FOR: u64 = 20;

/// One case that takes a register for so many of a seed, behind the divisions.
pub const REGISTER_ONE_FOR: u64 = 5;

/// So many cases of a seed, the divisions behind them, and then those that take a register.
pub fn cases(seed: u64, count: u64) -> impl Iterator<Item = Case> {
    let divisions = divisions(seed).take((count / DIVISION_ONE_FOR) as usize);
    let registers = registers::cases(seed).take((count / REGISTER_ONE_FOR) as usize);
    Generator::new(seed).take(count as usize).chain(divisions).chain(registers)
}

/// How many cases that is.
pub fn count(count: u64) -> u64 {
    count + count / DIVISION_ONE_FOR + count / REGISTER_ONE_FOR
}

/// Divisions without end.
pub fn divisions(seed: u64) -> impl Iterator<Item = Case> {
    let mut random = Random::new(seed);
    std::iter::repeat_with(move || alone::division(&mut random))
}

/// How a pool's charges and its ring's grid are chosen.
#[derive(Clone, Copy)]
pub struct Draws {
    pub charges: Charges,
    pub grids: Grids,
}

impl Draws {
    /// Points 0, spacing 15 and length 100: there the original is run beside.
    pub const USUAL: Draws = Draws { charges: charges::none, grids: grids::usual };
    pub const MIXED: Draws = Draws { charges: charges::mixed, grids: grids::mixed };
}

pub struct Generator {
    random: Random,
    list: List,
}

impl Generator {
    pub fn new(seed: u64) -> Generator {
        Generator { random: Random::new(seed), list: List::ended() }
    }
}

impl Iterator for Generator {
    type Item = Case;

    fn next(&mut self) -> Option<Case> {
        let random = &mut self.random;
        Some(match random.below(10) {
            0..4 => self.list.next_case(random),
            4..8 => hand::case(random, Draws::MIXED),
            _ => alone::case(random),
        })
    }
}
