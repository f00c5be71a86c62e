//! Single steps of the arithmetic beside the same with u128, on operands that are used once.

use crate::measure::median;
use beside::random::Random;
use data::Amounts;
use leaves::{port, with_u128};
use std::hint::black_box;
use std::time::Instant;

/// As many operands as a processor's nearest cache holds.
const BATCH: usize = 256;

type Operands = [u64; 4];
type Batch = [Operands; BATCH];

/// Nanoseconds for a call, and what the calls of a batch gave.
struct Timed {
    time: f64,
    answers: [u64; BATCH],
}

/// Nanoseconds for a call.
struct Row {
    name: &'static str,
    amounts: Amounts,
    port: f64,
    with_u128: f64,
}

struct Bench<'a> {
    random: &'a mut Random,
    batches: usize,
    rows: Vec<Row>,
}

/// The table of all steps.
pub fn measured(random: &mut Random, batches: usize) -> String {
    let mut bench = Bench { random, batches, rows: Vec::new() };
    bench.step("mul_high", any, two(port::leaf_mul_high), two(with_u128::mul_high));
    bench.step("mul_div_floor", fitting, three(port::leaf_mul_div_floor), three(with_u128::mul_div_floor));
    bench.step("mul_div_ceil", fitting, three(port::leaf_mul_div_ceil), three(with_u128::mul_div_ceil));
    bench.step("mul_div_sum", curve, four(port::leaf_mul_div_sum), four(with_u128::mul_div_sum));
    bench.step("price_x32", any, two(port::leaf_price_low), two(with_u128::price_low));
    bench.step("wrapping_add", any, four(port::leaf_sum_high), four(with_u128::sum_high));
    bench.step("isqrt", product, two(port::leaf_isqrt), two(with_u128::isqrt));
    markdown(&bench.rows)
}

impl Bench<'_> {
    fn step(
        &mut self,
        name: &'static str,
        operands: fn(&mut Random, Amounts) -> Operands,
        port: impl Fn(Operands) -> u64,
        with_u128: impl Fn(Operands) -> u64,
    ) {
        for amounts in [Amounts::Small, Amounts::Wide] {
            eprintln!("{name}, {}", amounts.name());
            let [port, with_u128] = self.medians(|random| operands(random, amounts), &port, &with_u128);
            self.rows.push(Row { name, amounts, port, with_u128 });
        }
    }

    /// Both sides must give the same answers.
    fn medians(
        &mut self,
        operands: impl Fn(&mut Random) -> Operands,
        port: impl Fn(Operands) -> u64,
        with_u128: impl Fn(Operands) -> u64,
    ) -> [f64; 2] {
        let mut times = [Vec::new(), Vec::new()];
        for number in 0..self.batches {
            let batch = std::array::from_fn(|_| operands(self.random));
            let [port, other] = timed_in_turn(&batch, number, &port, &with_u128);
            assert_eq!(port.answers, other.answers);
            times[0].push(port.time);
            times[1].push(other.time);
        }
        times.map(|times| median(times).unwrap_or(f64::NAN))
    }
}

// Both sides are called through a pointer that the compiler cannot see through.

fn two(step: extern "C" fn(u64, u64) -> u64) -> impl Fn(Operands) -> u64 {
    let step = black_box(step);
    move |[a, b, ..]| step(a, b)
}

fn three(step: extern "C" fn(u64, u64, u64) -> u64) -> impl Fn(Operands) -> u64 {
    let step = black_box(step);
    move |[a, b, c, _]| step(a, b, c)
}

fn four(step: extern "C" fn(u64, u64, u64, u64) -> u64) -> impl Fn(Operands) -> u64 {
    let step = black_box(step);
    move |[a, b, c, d]| step(a, b, c, d)
}

/// The side that comes first changes from batch to batch.
fn timed_in_turn(
    batch: &Batch,
    number: usize,
    first: impl Fn(Operands) -> u64,
    second: impl Fn(Operands) -> u64,
) -> [Timed; 2] {
    if number.is_multiple_of(2) {
        let first = timed(batch, first);
        [first, timed(batch, second)]
    } else {
        let second = timed(batch, second);
        [timed(batch, first), second]
    }
}

fn timed(batch: &Batch, step: impl Fn(Operands) -> u64) -> Timed {
    let mut answers = [0; BATCH];
    let start = Instant::now();
    for (answer, operands) in answers.iter_mut().zip(batch) {
        *answer = step(*operands);
    }
    black_box(&mut answers);
    let time = start.elapsed().as_nanos() as f64 / BATCH as f64;
    Timed { time, answers }
}

fn number(random: &mut Random, amounts: Amounts) -> u64 {
    match amounts {
        Amounts::Small => 1 + random.below(u32::MAX.into()),
        Amounts::Wide => random.word().max(1),
    }
}

fn any(random: &mut Random, amounts: Amounts) -> Operands {
    std::array::from_fn(|_| number(random, amounts))
}

/// A product and a divisor whose quotient has 64 bits, as in the calls.
fn fitting(random: &mut Random, amounts: Amounts) -> Operands {
    let [a, b, d, _] = any(random, amounts);
    [a.min(d), b, a.max(d), 0]
}

/// Input, net out, net in and the input again.
fn curve(random: &mut Random, amounts: Amounts) -> Operands {
    let [input, net_out, net_in, _] = any(random, amounts);
    [input, net_out, net_in, input]
}

/// The two halves of a product, as an opening takes its root.
fn product(random: &mut Random, amounts: Amounts) -> Operands {
    let [a, b, ..] = any(random, amounts);
    let product = u128::from(a) * u128::from(b);
    [(product >> 64) as u64, product as u64, 0, 0]
}

fn markdown(rows: &[Row]) -> String {
    let mut table = "| step | operands | port | u128 | ratio |\n|---|---|---:|---:|---:|\n".to_string();
    for Row { name, amounts, port, with_u128 } in rows {
        let (amounts, ratio) = (amounts.name(), port / with_u128);
        table += &format!("| `{name}` | {amounts} | {port:.1} | {with_u128:.1} | {ratio:.2} |\n");
    }
    table
}
