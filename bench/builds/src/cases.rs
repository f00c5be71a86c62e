//! What is timed: the benchmark's calls, and some that differ from them in one thing.

use beside::random::Random;
use data::{benches, Amounts, Bench, Clocks, Work};
use port::Port;
use record::Call;

#[derive(Clone, Copy, PartialEq, Eq)]
enum Twist {
    None,
    /// Creator fees are charged, on the token that goes out.
    FeeOnOutput,
    /// The amount is 0, which is refused.
    Zero,
}

#[derive(Clone, Copy)]
pub struct Case {
    pub bench: Bench,
    twist: Twist,
}

pub fn cases() -> Vec<Case> {
    let plain = benches().into_iter().map(|bench| Case { bench, twist: Twist::None });
    let by_input = benches().into_iter().filter(|bench| bench.kind == 2);
    let on_output = by_input.map(|bench| Case { bench, twist: Twist::FeeOnOutput });
    let refused = Bench { kind: 2, amounts: Amounts::Small, clocks: Clocks::Still };
    plain.chain(on_output).chain([Case { bench: refused, twist: Twist::Zero }]).collect()
}

impl Case {
    pub fn note(&self) -> &'static str {
        match self.twist {
            Twist::None => "",
            Twist::FeeOnOutput => ", fee on output",
            Twist::Zero => " of 0, refused",
        }
    }

    /// A call at this clock that is accepted, or refused where the case is a refusal. It is tried on a
    /// copy of the library that is not timed.
    pub fn work(&self, random: &mut Random, clock: u64) -> Work {
        loop {
            let mut work = self.bench.work(random, clock);
            self.twisted(&mut work);
            let accepted = Port::of(&work.state, 0).call(&work.call) == 0;
            if accepted != (self.twist == Twist::Zero) {
                return work;
            }
        }
    }

    fn twisted(&self, work: &mut Work) {
        match (self.twist, &mut work.call) {
            (Twist::FeeOnOutput, Call::SwapByInput(swap)) => {
                work.state.pool.enabled = true;
                // Model 1 is token 0, which goes out in direction 1.
                work.state.pool.fee_model = 2 - swap.direction;
            }
            (Twist::Zero, Call::SwapByInput(swap)) => swap.amount = 0,
            _ => {}
        }
    }
}
