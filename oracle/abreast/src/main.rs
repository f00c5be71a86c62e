//! The original, the rules and the port abreast: `oracle/compare` says how to call it.

mod afresh;
mod by_hand;
mod gentle;
mod lists;
mod registered;
mod registers;
mod report;
mod rings;
mod sides;
mod slices;
mod tally;
mod wide;

use beside::generator::{charges, grids, small, Draws};
use beside::random::Random;
use beside::{bounds, differences, edges, late};
use std::process::ExitCode;
use tally::{Group, Tally};

const USAGE: &str = "usage: abreast SEED COUNT | abreast small";
/// For so many calls at points 0, spacing 15 and length 100 there is one on a pool with charges, and one on
/// a pool with another spacing or length.
const OTHER_ONE_FOR: u64 = 4;
/// For so many calls there is one swap that is cut into slices; it takes about so many calls.
const CUT_ONE_FOR: u64 = 20;
const CALLS_OF_A_CUT: u64 = 4;
/// At points 0, so that the original can be asked about all but the ring.
const OTHER_GRID: Draws = Draws { charges: charges::none, grids: grids::other };
const CHARGED: Draws = Draws { charges: charges::some, grids: grids::mixed };

fn main() -> ExitCode {
    let words: Vec<String> = std::env::args().skip(1).collect();
    let words: Vec<&str> = words.iter().map(String::as_str).collect();
    let numbers: Option<Vec<u64>> = words.iter().map(|word| word.parse().ok()).collect();
    let tally = match (&words[..], numbers.as_deref()) {
        (["small"], _) => all_small(),
        (_, Some([seed, count])) => compared(*seed, *count),
        _ => {
            eprintln!("{USAGE}");
            return ExitCode::from(2);
        }
    };
    print!("{}", report::page(&tally, &words.join(" ")));
    if tally.is_clean() {
        ExitCode::SUCCESS
    } else {
        ExitCode::FAILURE
    }
}

/// All small calls.
fn all_small() -> Tally {
    let mut tally = Tally::of(small::count());
    small::cases().for_each(|case| by_hand::run_case(&case, &mut tally));
    tally
}

/// The edges, the bounds and the rows of docs/DIFFERENCES.md; then as many calls at points 0, spacing 15 and
/// length 100 as are asked for, more on pools of another spacing or length, and more on pools with charges;
/// last swaps that are cut into slices, from a seed of their own.
fn compared(seed: u64, count: u64) -> Tally {
    let (other, cuts) = (count / OTHER_ONE_FOR, count / CUT_ONE_FOR);
    let mut random = Random::new(seed);
    let mut tally = Tally::of(count + 2 * other + CALLS_OF_A_CUT * cuts);
    let chosen = [edges::cases(), edges::slice_cases(), bounds::cases(), differences::cases(), late::cases()];
    for case in chosen.concat() {
        by_hand::run_case(&case, &mut tally);
    }
    generated(&mut random, Draws::USUAL, &mut tally, |tally| tally.on_pools[Group::Usual] >= count);
    generated(&mut random, OTHER_GRID, &mut tally, |tally| tally.on_pools[Group::OtherGrid] >= other);
    generated(&mut random, CHARGED, &mut tally, |tally| tally.on_pools[Group::Charged] >= other);
    slices::run(&mut Random::new(!seed), cuts, &mut tally);
    tally
}

/// Lists from openings and calls by hand in turn, as many of one as of the other.
fn generated(random: &mut Random, draws: Draws, tally: &mut Tally, enough: impl Fn(&Tally) -> bool) {
    let mut lists = lists::Lists::new();
    while !enough(tally) {
        let before = tally.calls;
        lists.run_one(random, draws, tally);
        for _ in before..tally.calls {
            by_hand::run_one(random, draws, tally);
        }
    }
}
