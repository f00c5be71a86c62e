//! The calls with a register beside the same calls without one, on equal pools.

use crate::holders::{Numbers, Register, Who};
use crate::measure::{accepted, median, timed};
use beside::random::Random;
use cp_swap::plain;
use data::{touch_port, Amounts, Bench, Clocks, Work, BATCH};
use port::Port;
use record::{Call, Pool};
use std::hint::black_box;

const COUNTS: [usize; 2] = [8, 256];
/// A new holder's deposits, and numbers that share one mark, are timed at the most entries only.
const MOST: usize = 256;
const FULL: u64 = 16;
/// A call with a register takes so much longer that a tenth of the batches does.
const FEWER: usize = 10;
/// Of numbers that share one mark so many times fewer do.
const SLOWER: usize = 50;
/// The cases take turns, so that what disturbs the machine for some seconds disturbs no case alone.
const ROUNDS: usize = 20;

/// Without a register, with one, and the taking of the time itself.
const SIDES: usize = 3;

const HEAD: &str = "\
| call | entries | numbers | without | with | difference |
|---|---:|---|---:|---:|---:|
";

#[derive(Clone, Copy)]
struct Case {
    bench: Bench,
    who: Who,
    count: usize,
    numbers: Numbers,
}

/// The memory of a call with a register.
#[derive(Clone)]
struct Registered {
    port: Port,
    register: Register,
}

/// Nanoseconds for a call of each batch, by sides.
type Times = [Vec<f64>; SIDES];

/// The table of all calls with a register.
pub fn measured(random: &mut Random, batches: usize) -> String {
    let mut cases: Vec<(Case, Times)> = cases().into_iter().map(|case| (case, Times::default())).collect();
    for round in 1..=ROUNDS {
        eprintln!("with a register, {round} of {ROUNDS}");
        for (case, times) in &mut cases {
            case.measure(random, case.of(batches / FEWER / ROUNDS).max(1), times);
        }
    }
    HEAD.to_string() + &cases.into_iter().map(|(case, times)| case.row(times)).collect::<String>()
}

fn cases() -> Vec<Case> {
    let bench = |kind| Bench { kind, amounts: Amounts::Small, clocks: Clocks::None };
    let mut cases = Vec::new();
    for kind in [1, 4, 5] {
        for count in COUNTS {
            for numbers in [Numbers::InTurn, Numbers::Random, Numbers::Multiples] {
                cases.push(Case { bench: bench(kind), who: Who::Last, count, numbers });
            }
        }
        cases.push(Case { bench: bench(kind), who: Who::Last, count: MOST, numbers: Numbers::OneMark });
    }
    for who in [Who::New, Who::NoRoom] {
        for numbers in [Numbers::InTurn, Numbers::Random] {
            cases.push(Case { bench: bench(4), who, count: MOST, numbers });
        }
    }
    cases
}

impl Case {
    fn note(&self) -> &'static str {
        match self.who {
            Who::Last => "",
            Who::New => ", new holder",
            Who::NoRoom => ", new holder, refused (16)",
        }
    }

    /// Numbers of one mark are sought for long, and their calls take long.
    fn of(&self, batches: usize) -> usize {
        if self.numbers == Numbers::OneMark {
            batches / SLOWER
        } else {
            batches
        }
    }

    /// What the call with a register answers; without one all are accepted.
    fn number(&self) -> u64 {
        if self.who == Who::NoRoom {
            FULL
        } else {
            0
        }
    }

    fn measure(&self, random: &mut Random, batches: usize, times: &mut Times) {
        for number in 0..batches {
            let (works, registers): (Vec<Work>, Vec<Register>) =
                (0..BATCH).map(|_| self.drawn(random)).unzip();
            for (times, time) in times.iter_mut().zip(self.batch(&works, &registers, number % SIDES)) {
                times.push(time);
            }
        }
    }

    fn row(&self, times: Times) -> String {
        let [without, with, nothing] = times.map(|times| median(times).unwrap_or(f64::NAN));
        let (name, note, count, numbers) = (self.bench.name(), self.note(), self.count, self.numbers.name());
        let (without, with, more) = (without - nothing, with - nothing, with - without);
        format!("| `{name}`{note} | {count} | {numbers} | {without:.1} | {with:.1} | {more:.1} |\n")
    }

    /// The owner's LP in a withdrawal without a register is what the register says.
    fn drawn(&self, random: &mut Random) -> (Work, Register) {
        let at = data::clock(random);
        let mut work = accepted(&self.bench, random, at);
        let register = Register::drawn(random, self.count, self.numbers, self.who, work.state.pool.supply);
        if let Call::Withdrawal { owned, .. } = &mut work.call {
            *owned = register.owned();
        }
        (work, register)
    }

    /// The sides' times for these calls; another side is the first from batch to batch.
    fn batch(&self, works: &[Work], registers: &[Register], first: usize) -> [f64; SIDES] {
        let mut without: Vec<Port> = works.iter().map(|work| Port::of(&work.state, 0)).collect();
        let memory = without.iter().cloned().zip(registers.iter().cloned());
        let mut with: Vec<Registered> =
            memory.map(|(port, register)| Registered { port, register }).collect();
        let pristine = with.clone();
        let mut times = [0.0; SIDES];
        for turn in 0..SIDES {
            let side = (first + turn) % SIDES;
            times[side] = match side {
                0 => timed(&mut without, works, touch_port, |port, work| port.call(&work.call) == 0),
                1 => timed(&mut with, works, Registered::touch, |memory, work| {
                    memory.call(&work.call) == self.number()
                }),
                _ => timed(&mut [(); BATCH], works, |()| (), |(), _| true),
            };
        }
        for (at, work) in works.iter().enumerate() {
            self.compare(&work.call, &without[at], &with[at], &pristine[at]);
        }
        times
    }

    /// The call with a register left what the one without left, and its list; or all is as it was.
    fn compare(&self, call: &Call, without: &Port, with: &Registered, pristine: &Registered) {
        let (port, entries) = match self.number() {
            0 => {
                let supply = Pool::from_words(&without.pool).expect("an accepted call's record").supply;
                (without.clone(), pristine.register.after(call, supply))
            }
            number => (pristine.port.refused(number), pristine.register.entries.clone()),
        };
        assert!(with.port == port, "pool, ring and receipt are those of the call without a register");
        assert_eq!(with.register.entries, entries);
    }
}

impl Registered {
    /// Reads what the port is going to read.
    fn touch(&self) {
        touch_port(&self.port);
        black_box(self.register.entries.iter().fold(0, |all, [number, balance]| all ^ number ^ balance));
    }

    /// The call's number, 0 where it was accepted.
    fn call(&mut self, call: &Call) -> u64 {
        let Port { pool, ring, receipt } = &mut self.port;
        let Register { entries, holder } = &mut self.register;
        let (list, holder) = (entries.as_flattened_mut(), *holder);
        match *call {
            Call::Opening(opening) => {
                plain::open_registered(pool, ring, receipt, &opening.words(), list, holder)
            }
            Call::Deposit { lp, maximums } => {
                plain::deposit_registered(pool, ring, receipt, list, holder, lp, maximums)
            }
            Call::Withdrawal { lp, minimums, .. } => {
                plain::withdraw_registered(pool, ring, receipt, list, holder, lp, minimums)
            }
            _ => unreachable!("no other call has a register"),
        }
    }
}
