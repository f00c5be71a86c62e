//! Document 02 (h): a swap by input that is cut into slices gives no more than the whole. The port swaps the
//! slices in turn on one copy of pool and ring and the whole on another, and its receipts are compared.

use crate::afresh::{CHARGES, DIRECTION, PAID_OUT};
use crate::sides::{asked, FILL};
use crate::tally::Tally;
use beside::generator::list::List;
use beside::generator::slices::{pool, Cut, Slice};
use beside::random::Random;
use port::Port;
use record::{Case, State};

const SWAP_BY_INPUT: u64 = 2;
const LIMIT: u64 = 0;

#[derive(Default)]
pub struct Slices {
    /// Swaps that were cut, and calls that were made of them.
    pub cuts: u64,
    pub calls: u64,
    /// Cuts of which a slice was refused, or the whole alone: of these nothing is claimed.
    pub slice_refused: u64,
    pub whole_refused: u64,
    /// The others, how many slices they have, and those of them with a charge in a receipt.
    pub accepted: u64,
    pub slices: u64,
    pub charged: u64,
    /// Those that give just as much as the whole, and those whose one slice is the whole.
    pub as_much: u64,
    pub single: u64,
    pub faults: u64,
}

/// What swaps gave together: what left the vault, what the solver received of it, and the charges on both tokens.
#[derive(Clone, Copy, Debug, Default)]
struct Given {
    output: u128,
    received: u128,
    charges: u128,
}

/// Swaps on a pool and its ring: as the rules leave these, as the port's memory has them, and what was given.
struct Swapped {
    state: State,
    port: Port,
    given: Given,
}

/// So many swaps that are cut.
pub fn run(random: &mut Random, count: u64, tally: &mut Tally) {
    let mut list = List::ended();
    for _ in 0..count {
        let state = pool(random, &mut list);
        run_one(random, &state, tally);
    }
}

fn run_one(random: &mut Random, state: &State, tally: &mut Tally) {
    tally.slices.cuts += 1;
    let mut cut = Cut::new(random);
    let mut in_turn = Swapped::none_on(state);
    while let Some(slice) = cut.next(random, &in_turn.state) {
        let case = in_turn.case(cut.direction, slice);
        if !in_turn.accepts(&case, tally) {
            tally.slices.slice_refused += 1;
            return;
        }
    }
    let mut at_once = Swapped::none_on(state);
    let case = at_once.case(cut.direction, cut.whole(random, state));
    if !at_once.accepts(&case, tally) {
        tally.slices.whole_refused += 1;
        return;
    }
    let (together, whole) = (in_turn.given, at_once.given);
    tally.slices.count(cut.slices.len() as u64, together, whole);
    // One slice is the whole at another clock, so that neither of the two may give more.
    if together.is_more_than(whole) || cut.slices.len() == 1 && whole.is_more_than(together) {
        tally.slices_fault(format!("{together:?} of {:?} beside {whole:?} of the whole", cut.slices), &case);
    }
}

impl Swapped {
    fn none_on(state: &State) -> Swapped {
        Swapped { state: state.clone(), port: Port::of(state, FILL), given: Given::default() }
    }

    fn case(&self, direction: u64, slice: Slice) -> Case {
        Case::of_call(&self.state, SWAP_BY_INPUT, &[direction, slice.amount, LIMIT, slice.clock])
    }

    /// Whether the port accepts the swap, which is compared as every call is.
    fn accepts(&mut self, case: &Case, tally: &mut Tally) -> bool {
        tally.slices.calls += 1;
        self.state = asked(&self.state, case, &mut self.port, tally).state;
        let accepted = self.port.receipt[0] == 0;
        if accepted {
            self.given.count(&self.port.receipt);
        }
        accepted
    }
}

impl Given {
    /// An accepted swap's receipt.
    fn count(&mut self, receipt: &[u64; 18]) {
        let number = |at: usize| u128::from(receipt[at]);
        let token_out = usize::from(receipt[DIRECTION] == 0);
        let output = number(PAID_OUT[token_out]);
        self.output += output;
        self.received += output.saturating_sub(number(CHARGES[token_out]));
        self.charges += number(CHARGES[0]) + number(CHARGES[1]);
    }

    fn is_more_than(self, whole: Given) -> bool {
        self.output > whole.output || self.received > whole.received
    }
}

impl Slices {
    fn count(&mut self, slices: u64, together: Given, whole: Given) {
        self.accepted += 1;
        self.slices += slices;
        self.charged += u64::from(together.charges + whole.charges > 0);
        self.single += u64::from(slices == 1);
        self.as_much += u64::from(together.output == whole.output);
    }
}
