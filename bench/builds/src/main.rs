//! Two builds of the library beside each other, in one process on fresh random data. Prints the
//! table; `bench/before-after` calls it.

#![deny(unsafe_code)]

mod cases;
mod library;
mod measure;

use beside::random::Random;
use cases::cases;
use library::{Lengths, LIBRARIES};
use measure::Measure;
use std::{env, process::ExitCode};

const USAGE: &str = "usage: builds BATCHES";
const HEAD: &str = "\
| call | amounts | clock | before | after | ratio |
|---|---|---|---:|---:|---:|";

fn main() -> ExitCode {
    let words: Vec<String> = env::args().skip(1).collect();
    let Some(batches) = (words.len() == 1).then(|| words[0].parse().ok()).flatten() else {
        eprintln!("{USAGE}");
        return ExitCode::from(2);
    };
    match print_table(batches) {
        Ok(()) => ExitCode::SUCCESS,
        Err(error) => {
            eprintln!("{error}");
            ExitCode::FAILURE
        }
    }
}

/// Each ratio is the time after to the time before.
fn print_table(batches: usize) -> Result<(), String> {
    let lengths = common_lengths()?;
    let mut measure = Measure { random: Random::new(data::seed()), batches, lengths };
    println!("{HEAD}");
    for case in cases() {
        let (bench, note) = (case.bench, case.note());
        let [before, after] = measure
            .measured(&case)
            .map_err(|error| format!("{}{note}: the two builds differ\n{error}", bench.label()))?;
        let (name, amounts, clock, ratio) =
            (bench.name(), bench.amounts.name(), bench.clocks.name(), after / before);
        println!("| `{name}`{note} | {amounts} | {clock} | {before:.1} | {after:.1} | {ratio:.2} |");
    }
    Ok(())
}

/// What is compared: an older build can have a shorter record and a shorter receipt.
fn common_lengths() -> Result<Lengths, String> {
    let [before, after] = LIBRARIES[0].each_ref().map(|library| library.lengths());
    let (Some(before), Some(after)) = (before, after) else {
        return Err("a build refuses a plain opening".into());
    };
    let lengths = Lengths { pool: before.pool.min(after.pool), receipt: before.receipt.min(after.receipt) };
    eprintln!(
        "compared: {} numbers of the pool, {} of the receipt, all of the ring",
        lengths.pool, lengths.receipt
    );
    Ok(lengths)
}
