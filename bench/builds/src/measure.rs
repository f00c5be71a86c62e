//! Times batches of calls of both builds on the same memory. It is restored and read once before
//! each run, and what the two left in it is compared after.

use crate::cases::Case;
use crate::library::{Lengths, COPIES, LIBRARIES};
use beside::random::Random;
use data::{touch_port, BATCH};
use port::Port;
use record::Call;
use std::hint::black_box;
use std::time::Instant;

/// The stack is deeper by up to so many frames, less one.
const DEPTHS: u64 = 32;

/// Calls, and the memory that each is done on.
struct Batch {
    calls: Vec<Call>,
    pristine: Vec<Port>,
}

/// Nanoseconds for a call, and what the calls of a batch gave.
struct Run {
    time: f64,
    answers: [u64; BATCH],
    left: Vec<Port>,
}

/// Both builds' runs of a batch, and the time that a run of nothing takes.
struct Runs {
    builds: [Run; 2],
    nothing: f64,
}

pub struct Measure {
    pub random: Random,
    pub batches: usize,
    /// Of what both builds have.
    pub lengths: Lengths,
}

impl Measure {
    /// Nanoseconds for a call before and after, or how the two differ.
    pub fn measured(&mut self, case: &Case) -> Result<[f64; 2], String> {
        let mut times: [Vec<f64>; 3] = Default::default();
        for _ in 0..self.batches {
            for (times, time) in times.iter_mut().zip(self.batch(case)?) {
                times.push(time);
            }
        }
        let [before, after, nothing] = times.map(middle);
        Ok([before - nothing, after - nothing])
    }

    /// The times of both builds and of nothing. Copy, order and depth of the stack are drawn anew.
    fn batch(&mut self, case: &Case) -> Result<[f64; 3], String> {
        let at = data::clock(&mut self.random);
        let [warm, batch] = [(); 2].map(|()| self.drawn(case, at));
        let copy = self.random.pick(&RUNS);
        let first = self.random.below(2) as usize;
        let mut memory = batch.pristine.clone();
        let mut in_turn = || runs(&mut memory, &warm, &batch, copy, first);
        let Runs { builds, nothing } = deeper(self.random.below(DEPTHS), &mut in_turn);
        self.compare(&batch, &builds)?;
        Ok([builds[0].time, builds[1].time, nothing])
    }

    fn drawn(&mut self, case: &Case, at: u64) -> Batch {
        let works = (0..BATCH).map(|_| case.work(&mut self.random, at));
        let (calls, pristine) = works.map(|work| (work.call, Port::of(&work.state, 0))).unzip();
        Batch { calls, pristine }
    }

    fn compare(&self, batch: &Batch, [before, after]: &[Run; 2]) -> Result<(), String> {
        for (at, call) in batch.calls.iter().enumerate() {
            for ((name, before), (_, after)) in self.left(before, at).into_iter().zip(self.left(after, at)) {
                if before != after {
                    let pool = batch.pristine[at].pool;
                    return Err(format!(
                        "{call:?}\non {pool:?}\n{name} before {before:?}\n{name} after {after:?}"
                    ));
                }
            }
        }
        Ok(())
    }

    /// What is compared, as far as both builds have it.
    fn left<'a>(&self, run: &'a Run, at: usize) -> [(&'static str, &'a [u64]); 4] {
        let Port { pool, ring, receipt } = &run.left[at];
        [
            ("number", &run.answers[at..=at]),
            ("receipt", &receipt[..self.lengths.receipt]),
            ("pool", &pool[..self.lengths.pool]),
            ("ring", ring),
        ]
    }
}

/// Runs this with the stack so many frames deeper, since where it lies can favour a build.
#[inline(never)]
fn deeper<T>(levels: u64, run: &mut dyn FnMut() -> T) -> T {
    let result = if levels == 0 { run() } else { deeper(levels - 1, run) };
    // Work after the call keeps its frame.
    black_box(result)
}

/// The warm-up has data of its own: nothing is learnt of the calls that are timed.
fn runs(memory: &mut [Port], warm: &Batch, batch: &Batch, mut copy: [Timing; 2], first: usize) -> Runs {
    copy.rotate_left(first);
    for run in copy {
        run(memory, warm);
    }
    let mut builds = copy.map(|run| run(memory, batch));
    builds.rotate_right(first);
    Runs { builds, nothing: timed(memory, batch, |_, _| 0).0 }
}

type Timing = fn(&mut [Port], &Batch) -> Run;

/// Each copy has a loop of its own: where two share a call, the processor has to guess which is meant.
const RUNS: [[Timing; 2]; COPIES] = [
    [run::<0, 0>, run::<0, 1>],
    [run::<1, 0>, run::<1, 1>],
    [run::<2, 0>, run::<2, 1>],
    [run::<3, 0>, run::<3, 1>],
];

#[inline(never)]
fn run<const COPY: usize, const BUILD: usize>(memory: &mut [Port], batch: &Batch) -> Run {
    let library = &LIBRARIES[COPY][BUILD];
    let (time, answers) = timed(memory, batch, |memory, call| library.call(memory, call));
    Run { time, answers, left: memory.to_vec() }
}

#[inline(always)]
fn timed(memory: &mut [Port], batch: &Batch, call: impl Fn(&mut Port, &Call) -> u64) -> (f64, [u64; BATCH]) {
    memory.clone_from_slice(&batch.pristine);
    memory.iter().for_each(touch_port);
    black_box(batch.calls.iter().map(Call::kind).sum::<u64>());
    let mut answers = [0; BATCH];
    let start = Instant::now();
    for ((answer, memory), work) in answers.iter_mut().zip(memory).zip(&batch.calls) {
        *answer = call(memory, work);
    }
    black_box(&mut answers);
    (start.elapsed().as_nanos() as f64 / BATCH as f64, answers)
}

/// The mean of the middle half of the times. A clock can tick in steps of ten nanoseconds, and a
/// median alone would be on one of them.
fn middle(mut times: Vec<f64>) -> f64 {
    times.sort_by(f64::total_cmp);
    let quarter = times.len() / 4;
    let half = &times[quarter..times.len() - quarter];
    half.iter().sum::<f64>() / half.len() as f64
}
