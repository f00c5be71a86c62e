//! Swaps by input that are cut into slices, for document 02 (h). Each slice is drawn on what the one before
//! left, so that many a swap is accepted in all its slices.

use super::list::List;
use super::{arguments, grids, hand, Draws};
use crate::random::Random;
use model::calls::nets;
use record::{Call, Pool, State, Swap};

const MOST_SLICES: u64 = 10;
/// One swap in so many is cut into equal slices, and one in so many into slices of more than one size.
const EQUAL_ONE_IN: u64 = 4;
const ANY_SIZES_ONE_IN: u64 = 4;
/// One slice in so many may be too small to buy anything.
const TOO_SMALL_ONE_IN: u64 = 16;
/// Of the pools that refuse by nets, status, rates or fee model one in so many is taken.
const REFUSING_ONE_IN: u64 = 8;

/// A pool and its ring to swap with: by hand, or what the list's next call leaves.
pub fn pool(random: &mut Random, list: &mut List) -> State {
    loop {
        let by_hand = random.chance(2);
        let state = if by_hand { hand::state(random, Draws::MIXED) } else { list.next_pool(random) };
        if may_swap(&state.pool) || random.chance(REFUSING_ONE_IN) {
            return state;
        }
    }
}

/// Whether both nets are above 0 and status, rates and fee model refuse no swap; ring, counters, vault, amount and
/// clock still may.
fn may_swap(pool: &Pool) -> bool {
    let has_nets = nets(pool).is_ok_and(|nets| !nets.contains(&0));
    has_nets && !pool.status_bit(2) && !pool.rates.past_limits() && pool.fee_model < 3
}

#[derive(Clone, Copy, Debug)]
pub struct Slice {
    pub amount: u64,
    pub clock: u64,
}

/// How large a slice is, on a state, in a direction and at a clock.
type Size = fn(&mut Random, &State, u64, u64) -> u64;

const SIZES: [Size; 5] = [few, least, bought, part, room];

/// The next slice's clock, on a state and after a clock.
type Pace = fn(&mut Random, &State, u64) -> u64;

const PACES: [Pace; 4] = [equal, rising, falling, any];

/// How a swap is cut, and its slices so far.
pub struct Cut {
    pub direction: u64,
    pub slices: Vec<Slice>,
    count: usize,
    equal: bool,
    /// None where it is drawn for each slice.
    size: Option<Size>,
    pace: Pace,
}

impl Cut {
    pub fn new(random: &mut Random) -> Cut {
        Cut {
            direction: random.below(2),
            slices: Vec::new(),
            count: 1 + random.below(MOST_SLICES) as usize,
            equal: random.chance(EQUAL_ONE_IN),
            size: if random.chance(ANY_SIZES_ONE_IN) { None } else { Some(random.pick(&SIZES)) },
            pace: random.pick(&PACES),
        }
    }

    /// The next slice, on what the one before left; none after the last.
    pub fn next(&mut self, random: &mut Random, state: &State) -> Option<Slice> {
        if self.slices.len() == self.count {
            return None;
        }
        let last = self.slices.last().copied();
        let clock = match last {
            Some(last) => (self.pace)(random, state, last.clock),
            None => arguments::clock(random, state),
        };
        let amount = match last {
            Some(last) if self.equal => last.amount,
            _ => self.amount(random, state, clock),
        };
        // The whole is a u64 too.
        let slice = Slice { amount: amount.min(u64::MAX - self.sum()), clock };
        self.slices.push(slice);
        Some(slice)
    }

    fn amount(&self, random: &mut Random, state: &State, clock: u64) -> u64 {
        let size = self.size.unwrap_or_else(|| random.pick(&SIZES));
        let amount = size(random, state, self.direction, clock);
        if random.chance(TOO_SMALL_ONE_IN) {
            amount
        } else {
            amount.max(sent_for(state, self.direction, 1, clock))
        }
    }

    /// All slices at once, at a clock of its own, on the state that the first was drawn on.
    pub fn whole(&self, random: &mut Random, state: &State) -> Slice {
        Slice { amount: self.sum(), clock: arguments::clock(random, state) }
    }

    fn sum(&self) -> u64 {
        self.slices.iter().map(|slice| slice.amount).sum()
    }
}

fn few(random: &mut Random, _: &State, _: u64, _: u64) -> u64 {
    1 + random.below(20)
}

/// The least that buys a few tokens, or one more, so that rounding takes little, and slices at times give as much as
/// the whole.
fn least(random: &mut Random, state: &State, direction: u64, clock: u64) -> u64 {
    let output = 1 + random.below(4);
    sent_for(state, direction, output, clock).saturating_add(random.below(4) / 3)
}

/// The least that buys up to a quarter of the net.
fn bought(random: &mut Random, state: &State, direction: u64, clock: u64) -> u64 {
    let output = random.up_to(net(state, 1 - direction) / 4) >> random.below(40);
    sent_for(state, direction, output.max(1), clock)
}

/// Up to half of the net on its side.
fn part(random: &mut Random, state: &State, direction: u64, _: u64) -> u64 {
    1 + (random.up_to(net(state, direction) / 2) >> random.below(30))
}

/// Up to all that the vault has room for.
fn room(random: &mut Random, state: &State, direction: u64, _: u64) -> u64 {
    random.up_to(u64::MAX - state.pool.vaults[direction as usize]) >> random.below(8)
}

/// What a swap by output sends for this amount; 1 where it is refused.
fn sent_for(state: &State, direction: u64, amount: u64, clock: u64) -> u64 {
    let call = Call::SwapByOutput(Swap { direction, amount, limit: u64::MAX, clock });
    model::run(state, &call).receipt.sent(direction as usize).max(1)
}

fn net(state: &State, token: u64) -> u64 {
    state.pool.net(token as usize).unwrap_or_default()
}

fn equal(_: &mut Random, _: &State, clock: u64) -> u64 {
    clock
}

fn rising(random: &mut Random, state: &State, clock: u64) -> u64 {
    clock.saturating_add(grids::seconds(random, state.pool.grid))
}

/// Not before the open time, where every swap is refused.
fn falling(random: &mut Random, state: &State, clock: u64) -> u64 {
    clock.saturating_sub(grids::seconds(random, state.pool.grid)).max(state.pool.open_time)
}

fn any(random: &mut Random, state: &State, _: u64) -> u64 {
    arguments::clock(random, state)
}
