//! The rules, document 01 with document 02 (a) to (g), in whole numbers: every call and every
//! function alone, written from their text and in its order. It knows nothing of the original.

pub mod calls;
mod charge;
mod curve;
mod fees;
mod functions;
mod refusal;
pub mod register;
mod ring;
mod whole;

use record::{call_answer, Answer, Call, Case, Receipt, Ring, State, RING_ENTRIES};

/// What the rules answer to a case.
pub fn answer(case: &Case) -> Answer {
    match case.call() {
        Some(call) => {
            let after = run(&case.state(), &call);
            call_answer(case.kind, after.number, &after.receipt, &after.state)
        }
        None if case.form().takes_list() => register::answer(case),
        None => functions::answer(case),
    }
}

/// A call's number, receipt and the state after it.
pub struct After {
    pub number: u64,
    pub receipt: Receipt,
    pub state: State,
}

/// A refused call gives its number with zeros and changes nothing; a refused opening has
/// no pool to keep and gives zeros.
pub fn run(state: &State, call: &Call) -> After {
    match calls::accepted(state, call) {
        Ok((state, receipt)) => After { number: 0, receipt, state },
        Err(number) => refused(number, state, matches!(call, Call::Opening(_))),
    }
}

fn refused(number: u64, state: &State, opening: bool) -> After {
    let state = if opening { empty() } else { state.clone() };
    After { number, receipt: Receipt::default(), state }
}

/// A pool and ring of zeros.
pub fn empty() -> State {
    const RING: Ring = [[0; 5]; RING_ENTRIES];
    State { pool: Default::default(), ring: RING }
}
