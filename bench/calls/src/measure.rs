//! Times batches of calls, each on a pool of its own. All that a side needs is laid out and read
//! once before its time is taken, and what it left is compared after.

use crate::bare_core::Core;
use crate::handler::{accounts, run, touch, touch_memory, Accounts};
use anchor_lang::clock;
use beside::random::Random;
use data::{touch_port, Bench, Work, BATCH};
use port::Port;
use record::Pool;
use runner::Memory;
use std::hint::black_box;
use std::time::Instant;

/// Nanoseconds for a call; none where the original has no such thing.
pub struct Times {
    pub port: f64,
    pub handler: Option<f64>,
    /// The handler with the making and dropping of its accounts.
    pub with_accounts: Option<f64>,
    pub core: Option<f64>,
}

/// The four of the times, and the taking of the time itself.
const SIDES: usize = 5;

pub fn measured(bench: &Bench, random: &mut Random, batches: usize) -> Times {
    let mut times: [Vec<f64>; SIDES] = Default::default();
    for number in 0..batches {
        let at = data::clock(random);
        clock::set(at);
        let works: Vec<Work> = (0..BATCH).map(|_| accepted(bench, random, at)).collect();
        for (side, time) in batch(&works, number % SIDES).into_iter().enumerate() {
            times[side].extend(time);
        }
    }
    let [port, handler, with_accounts, core, nothing] = times.map(median);
    let less_nothing = |time: f64| time - nothing.unwrap_or_default();
    Times {
        port: less_nothing(port.expect("the port has every call")),
        handler: handler.map(less_nothing),
        with_accounts: with_accounts.map(less_nothing),
        core: core.map(less_nothing),
    }
}

/// A call that the port accepts.
pub fn accepted(bench: &Bench, random: &mut Random, at: u64) -> Work {
    loop {
        let work = bench.work(random, at);
        if Port::of(&work.state, 0).call(&work.call) == 0 {
            return work;
        }
    }
}

/// The sides' times for these calls; another side is the first from batch to batch.
fn batch(works: &[Work], first: usize) -> [Option<f64>; SIDES] {
    let mut ports: Vec<Port> = works.iter().map(|work| Port::of(&work.state, 0)).collect();
    let (memories, mut others) = (memories(works), memories(works));
    let mut handlers: Vec<Accounts> =
        memories.iter().zip(works).filter_map(|(memory, work)| accounts(memory, work)).collect();
    let mut cores: Vec<Core> = works.iter().map(Core::of).collect();
    let by_handler = !handlers.is_empty();
    let mut times = [None; SIDES];
    for turn in 0..SIDES {
        let side = (first + turn) % SIDES;
        times[side] = match side {
            0 => Some(timed(&mut ports, works, touch_port, |port, work| port.call(&work.call) == 0)),
            1 if by_handler => {
                Some(timed(&mut handlers, works, touch, |accounts, work| run(accounts, &work.call).is_ok()))
            }
            2 if by_handler => Some(timed(&mut others, works, touch_memory, with_accounts)),
            3 if works[0].call.kind() != 1 => {
                Some(timed(&mut cores, works, Core::touch, |core, work| core.run(&work.call).is_ok()))
            }
            4 => Some(timed(&mut [(); BATCH], works, |()| (), |(), _| true)),
            _ => None,
        };
    }
    drop(handlers);
    if by_handler {
        works.iter().zip(&ports).zip(memories.iter().zip(&cores)).for_each(same);
    }
    times
}

fn memories(works: &[Work]) -> Vec<Memory> {
    works.iter().map(|work| Memory::of(&work.state).expect("the data fits")).collect()
}

fn with_accounts(memory: &mut Memory, work: &Work) -> bool {
    accounts(memory, work).is_some_and(|mut accounts| run(&mut accounts, &work.call).is_ok())
}

/// Nanoseconds for a call; every one says that it was answered as it should be.
#[inline(always)]
pub fn timed<T>(
    sides: &mut [T],
    works: &[Work],
    touch: impl Fn(&T),
    call: impl Fn(&mut T, &Work) -> bool,
) -> f64 {
    sides.iter().for_each(touch);
    black_box(works.iter().map(|work| work.call.kind()).sum::<u64>());
    let start = Instant::now();
    let mut as_it_should = true;
    for (side, work) in sides.iter_mut().zip(works) {
        as_it_should &= black_box(call(side, work));
    }
    let time = start.elapsed().as_nanos() as f64 / works.len() as f64;
    assert!(as_it_should, "every side answers these calls as it should");
    time
}

/// The port and the handler left the same pool and ring, the core the same vaults.
fn same(((work, port), (memory, core)): ((&Work, &Port), (&Memory, &Core))) {
    let mut state = work.state.clone();
    memory.read_into(&mut state);
    assert_eq!(Pool::from_words(&port.pool), Some(state.pool));
    assert_eq!(port.ring[..], *state.ring.as_flattened());
    assert_eq!(core.vaults(), state.pool.vaults);
}

pub fn median(mut times: Vec<f64>) -> Option<f64> {
    times.sort_by(f64::total_cmp);
    times.get(times.len() / 2).copied()
}
