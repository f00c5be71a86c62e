//! The port: libcp_swap.a over memory that a state is laid out in.

use cp_swap::plain;
use record::{Call, Case, Receipt, State, OPENING_LENGTH, RECEIPT_LENGTH};

/// The number stands before the receipt's own.
const NUMBER_AND_RECEIPT: usize = 1 + RECEIPT_LENGTH;

/// A pool, its ring and a receipt, as the library has them.
#[derive(Clone, PartialEq, Eq)]
pub struct Port {
    pub pool: plain::PoolWords,
    pub ring: plain::RingWords,
    pub receipt: plain::ReceiptWords,
}

impl Port {
    /// The receipt is filled with this number, so that every write to it shows.
    pub fn of(state: &State, fill: u64) -> Port {
        let ring = state.ring.as_flattened().try_into().expect("a ring has 500 numbers");
        Port { pool: state.pool.words(), ring, receipt: [fill; NUMBER_AND_RECEIPT] }
    }

    /// What the memory holds after an accepted call that gives this.
    pub fn with(state: &State, receipt: &Receipt) -> Port {
        let mut port = Port::of(state, 0);
        port.receipt[1..].copy_from_slice(&receipt.words());
        port
    }

    /// What the memory holds after a call that is refused with this number.
    pub fn refused(&self, number: u64) -> Port {
        let mut receipt = [0; NUMBER_AND_RECEIPT];
        receipt[0] = number;
        Port { receipt, ..self.clone() }
    }

    /// The call's number, 0 where it was accepted.
    pub fn call(&mut self, call: &Call) -> u64 {
        let Port { pool, ring, receipt } = self;
        match *call {
            Call::Opening(opening) => plain::open(pool, ring, receipt, &opening.words()),
            Call::SwapByInput(s) => {
                plain::base_input(pool, ring, receipt, s.direction, s.amount, s.limit, s.clock)
            }
            Call::SwapByOutput(s) => {
                plain::base_output(pool, ring, receipt, s.direction, s.amount, s.limit, s.clock)
            }
            Call::Deposit { lp, maximums } => plain::deposit(pool, ring, receipt, lp, maximums),
            Call::Withdrawal { lp, owned, minimums } => {
                plain::withdraw(pool, ring, receipt, lp, owned, minimums)
            }
            Call::Settlement { share } => plain::settle_creator_fee(pool, ring, receipt, share),
            Call::Status { bit, flag } => plain::set_status(pool, ring, receipt, bit, flag),
        }
    }

    /// The number of a call with a register, whose list is lent too.
    pub fn call_registered(&mut self, case: &Case, list: &mut [u64]) -> u64 {
        let Port { pool, ring, receipt } = self;
        let arguments = case.arguments();
        guarded(list, |list| match (case.kind, arguments) {
            (44, &[lp, maximum_0, maximum_1, holder, ..]) => {
                plain::deposit_registered(pool, ring, receipt, list, holder, lp, [maximum_0, maximum_1])
            }
            (45, &[lp, minimum_0, minimum_1, holder, ..]) => {
                plain::withdraw_registered(pool, ring, receipt, list, holder, lp, [minimum_0, minimum_1])
            }
            _ => {
                let opening = arguments[..OPENING_LENGTH].try_into().expect("an opening has sixteen numbers");
                plain::open_registered(pool, ring, receipt, opening, list, arguments[OPENING_LENGTH])
            }
        })
    }

    /// The two nets, or the refusal's number and what the caller's numbers were.
    pub fn nets(&self, fill: u64) -> (u64, [u64; 2]) {
        let mut nets = [fill; 2];
        (plain::nets(&self.pool, &mut nets), nets)
    }
}

/// A holder's balance in a list, or the refusal's number and what the caller's number was.
pub fn balance(list: &[u64], holder: u64, fill: u64) -> (u64, u64) {
    let mut balance = fill;
    (plain::balance(list, holder, &mut balance), balance)
}

/// Stands on either side of a list that is lent.
const GUARD: u64 = 0x5A5A_5A5A_5A5A_5A5A;
/// What no call answers.
const GUARD_WRITTEN: u64 = 99;

fn guarded(list: &mut [u64], call: impl FnOnce(&mut [u64]) -> u64) -> u64 {
    let mut memory = vec![GUARD; list.len() + 2];
    let end = memory.len() - 1;
    memory[1..end].copy_from_slice(list);
    let number = call(&mut memory[1..end]);
    list.copy_from_slice(&memory[1..end]);
    if memory[0] == GUARD && memory[end] == GUARD {
        number
    } else {
        GUARD_WRITTEN
    }
}
