//! A busy day: rates, an opening, and then swaps both ways, deposits, withdrawals, settlements and
//! a few rows that are refused.

use beside::random::Random;
use std::io::{self, Write};

pub fn write(mut output: impl Write, seed: u64, rows: u64) -> io::Result<()> {
    let mut random = Random::new(seed);
    let mut clock = 1_700_000_000;
    row(&mut output, 0, [2_500, 120_000, 40_000, 1_000, 300_000])?;
    row(&mut output, 1, [4_000_000_000_000, 9_000_000_000_000, random.below(3), 1, 0])?;
    for _ in 2..rows {
        clock += random.below(3);
        let (kind, numbers) = call(&mut random, clock);
        row(&mut output, kind, numbers)?;
    }
    output.flush()
}

fn call(random: &mut Random, clock: u64) -> (u64, [u64; 5]) {
    let amount = 1_000 + (random.below(1 << 32) >> random.below(20));
    let direction = random.below(2);
    match random.below(100) {
        0..45 => (2, [direction, amount, 1, clock, 0]),
        45..80 => (3, [direction, amount, u64::MAX, clock, 0]),
        80..87 => (4, [amount, u64::MAX, u64::MAX, 0, 0]),
        87..94 => (5, [amount, u64::MAX, 0, 0, 0]),
        94..96 => (6, [0; 5]),
        96 => (7, [random.below(3), 0, 0, 0, 0]),
        97 => (2, [direction, amount, u64::MAX, clock, 0]),
        98 => (2, [2, amount, 1, clock, 0]),
        _ => (9, [0; 5]),
    }
}

fn row(output: &mut impl Write, kind: u64, numbers: [u64; 5]) -> io::Result<()> {
    write!(output, "{kind:>2}")?;
    for number in numbers {
        write!(output, "{number:>20}")?;
    }
    writeln!(output)
}
