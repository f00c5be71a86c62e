//! Lists of calls from openings, in any order, that fill and empty the pool. The next call
//! gets the state that the rules give after the one before.

use super::{arguments, charges, grids, hand, Draws};
use crate::random::Random;
use record::{Case, Opening, State};

pub struct List {
    state: State,
    calls_left: u64,
}

impl List {
    /// A list that has ended, so that the next case is an opening.
    pub fn ended() -> List {
        List { state: model::empty(), calls_left: 0 }
    }

    pub fn next_case(&mut self, random: &mut Random) -> Case {
        let case = match self.calls_left {
            0 => opening(random, Draws::MIXED),
            _ => call(random, &self.state),
        };
        let call = case.call().expect("a list holds calls only");
        let after = model::run(&self.state, &call);
        if self.calls_left > 0 {
            self.calls_left -= 1;
        } else if after.number == 0 {
            self.calls_left = 5 + random.below(60);
        }
        self.state = after.state;
        case
    }

    /// The pool that the next call leaves, with its ring; a refused opening leaves none.
    pub fn next_pool(&mut self, random: &mut Random) -> State {
        loop {
            self.next_case(random);
            if self.state.pool.supply > 0 {
                return self.state.clone();
            }
        }
    }
}

/// A list's next call on this state.
pub fn call(random: &mut Random, state: &State) -> Case {
    let kind = match random.below(20) {
        0..6 => 2,
        6..12 => 3,
        12..15 => 4,
        15..18 => 5,
        18 => 6,
        _ => 7,
    };
    // A closed pool would only refuse, so most status changes open it again.
    if kind == 7 && !random.chance(4) {
        let bit = random.below(3);
        return Case::of_call(state, kind, &[bit, 0]);
    }
    arguments::call(random, state, kind)
}

/// An opening that begins a list, or is refused.
pub fn opening(random: &mut Random, draws: Draws) -> Case {
    let amounts = match random.below(4) {
        0 => [random.edge(), random.edge()],
        1 => [1 + random.below(300), 1 + random.below(300)],
        _ => [random.sized(), random.sized()],
    };
    let fee_model = if random.chance(20) { random.any() } else { random.below(3) };
    let enabled = if random.chance(20) { random.any() } else { random.below(2) };
    let open_time = if random.chance(4) { random.any() } else { 0 };
    let rates = hand::rates(random);
    // What no opening accepts is tried on some that bear charges or have another grid.
    let Draws { charges, grids } = draws;
    let charges = if random.chance(10) { charges::by_hand(random, charges) } else { charges(random) };
    let grid = if random.chance(4) { grids::by_hand(random, grids) } else { grids(random) };
    of(Opening { amounts, fee_model, enabled, open_time, rates, charges, grid })
}

/// The case of an opening.
pub fn of(opening: Opening) -> Case {
    Case { kind: 1, columns: opening.words().to_vec() }
}
