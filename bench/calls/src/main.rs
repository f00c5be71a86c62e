//! Each call of the port beside the original's handler and beside its bare core, then those with a
//! register beside the same without one, then the steps of its arithmetic beside u128, in one process
//! on fresh random data. Prints the tables; `bench/run` says where they and the chart go.

mod arithmetic;
mod bare_core;
mod chart;
mod handler;
mod holders;
mod measure;
mod register;
mod table;

use beside::random::Random;
use data::{benches, seed};
use std::{env, fs, process::ExitCode};

const USAGE: &str = "usage: calls BATCHES CHART.svg";

fn main() -> ExitCode {
    let words: Vec<String> = env::args().skip(1).collect();
    let [batches, chart] = &words[..] else {
        eprintln!("{USAGE}");
        return ExitCode::from(2);
    };
    let Ok(batches) = batches.parse() else {
        eprintln!("{USAGE}");
        return ExitCode::from(2);
    };
    let mut random = Random::new(seed());
    let rows: Vec<table::Row> = benches()
        .into_iter()
        .map(|bench| {
            eprintln!("{}", bench.label());
            table::Row { bench, times: measure::measured(&bench, &mut random, batches) }
        })
        .collect();
    println!("### The calls, nanoseconds\n\n{}", table::markdown(&rows));
    println!("### With a register, nanoseconds\n\n{}", register::measured(&mut random, batches));
    print!("### The arithmetic, nanoseconds\n\n{}", arithmetic::measured(&mut random, batches));
    match fs::write(chart, chart::svg(&rows)) {
        Ok(()) => ExitCode::SUCCESS,
        Err(error) => {
            eprintln!("{chart}: {error}");
            ExitCode::FAILURE
        }
    }
}
