//! Runs the original on any state and any arguments. A call that fails or panics is rolled
//! back, as a chain would, and what it had changed before is kept to be shown.

mod calls;
mod failure;
mod functions;
mod memory;

use record::{call_answer, only_newest_written, Answer, Case, Receipt, State};

/// One number that a refused call had changed before it was rolled back.
#[derive(Clone, Debug, PartialEq, Eq)]
pub struct Change {
    pub column: String,
    pub before: u64,
    pub after: u64,
}

/// A call that the original has answered.
pub struct Run {
    pub number: u64,
    pub receipt: Receipt,
    pub state: State,
    /// What the call had changed when it was refused.
    pub booked: Vec<Change>,
    pub cause: Cause,
}

/// Where a number comes from.
#[derive(Clone, Debug, PartialEq, Eq)]
pub enum Cause {
    /// The call was accepted.
    None,
    /// The original's own check.
    Check,
    /// The original panicked on this line.
    Panic(String),
    /// The stand-in for the token program.
    StandIn,
}

pub use calls::{deposit_accounts, run, swap_accounts, withdraw_accounts};
pub use memory::{config, observation_state, pool_state, Memory, VAULT_KEYS};

impl Run {
    /// As the answer to a case of this kind.
    pub fn outcome(self, kind: u64) -> Outcome {
        let answer = call_answer(kind, self.number, &self.receipt, &self.state);
        Outcome::Answered { answer, booked: self.booked, cause: self.cause }
    }
}

/// What the original says to a case.
pub enum Outcome {
    Answered {
        answer: Answer,
        booked: Vec<Change>,
        cause: Cause,
    },
    /// A function alone gave a result of more than 64 bits.
    Wide(Vec<u128>),
    /// The Rust has no such call, argument or width.
    Absent(&'static str),
}

pub fn answer(case: &Case) -> Outcome {
    let Some(call) = case.call() else {
        return functions::answer(case);
    };
    let before = case.state();
    match run(&before, &call) {
        Err(reason) => Outcome::Absent(reason),
        Ok(run) => {
            assert!(only_newest_written(&before.ring, &run.state.ring, run.state.pool.head.index));
            run.outcome(case.kind)
        }
    }
}
