//! Lists of calls from openings, carried on by the port's own memory, with demand 3's three claims, the
//! two of document 02 (e), what (f) says of the ring's entries and what (g) says of a register checked at
//! every point.

use crate::afresh::{Afresh, Books, Point};
use crate::gentle;
use crate::registered;
use crate::registers::Kept;
use crate::sides::{asked, FILL};
use crate::tally::{Group, Tally};
use beside::generator::{list, registers, Draws};
use beside::random::Random;
use port::Port;
use record::{Call, Case, Grid, State};

/// One list in so many is gentle, and long enough to go around the ring, or to fill a long register.
const GENTLE_ONE_IN: u64 = 40;
const GENTLE_LENGTH: u64 = 600;
/// One list in so many is opened with a register. In one of these in so many other calls move LP too.
const REGISTER_ONE_IN: u64 = 2;
const MIXED_ONE_IN: u64 = 3;
/// Without that, one deposit or withdrawal in so many takes a register by hand.
const OTHER_ONE_IN: u64 = 16;

pub struct Lists {
    state: State,
    port: Port,
    /// What the last list with a register left of it.
    list: Vec<u64>,
}

/// Which register a call takes.
#[derive(Clone, Copy, PartialEq, Eq)]
enum Taken {
    None,
    /// The one that the list of calls was opened with.
    Kept,
    Other,
}

impl Lists {
    pub fn new() -> Lists {
        let state = model::empty();
        let port = Port::of(&state, FILL);
        Lists { state, port, list: vec![] }
    }

    /// One opening, and if it is accepted a list of calls. The port's memory is what the list
    /// before left, which a refused opening keeps.
    pub fn run_one(&mut self, random: &mut Random, draws: Draws, tally: &mut Tally) {
        let gentle = random.chance(GENTLE_ONE_IN);
        let plain = if gentle { gentle::opening(random, draws) } else { list::opening(random, draws) };
        let with_register = random.chance(REGISTER_ONE_IN);
        let case = if with_register { registers::opened(random, &plain, &self.list) } else { plain.clone() };
        let (after, list) = self.ask(&case, tally);
        let Some(Call::Opening(opening)) = plain.call().filter(|_| after.number == 0) else {
            return;
        };
        self.state = after.state;
        tally.lists[Group::of(&case)] += 1;
        let length = if gentle { GENTLE_LENGTH } else { 5 + random.below(60) };
        let afresh = Afresh::at_opening(opening.amounts);
        let kept = with_register.then(|| Kept::opened(list, &self.port, &case, tally));
        let mixed = kept.is_some() && random.chance(MIXED_ONE_IN);
        let mut claims = Claims { afresh, grid: opening.grid, points: Vec::new(), kept };
        claims.check(&self.port, &case, tally);
        let faults = tally.port_faults;
        for _ in 0..length {
            let (case, taken) = self.drawn(random, gentle, mixed, claims.kept.as_ref());
            self.next_call(&case, taken, &mut claims, tally);
            // What follows a fault says nothing more.
            if tally.port_faults != faults {
                return;
            }
        }
        tally.drained_lists += u64::from(claims.points.last().is_some_and(|point| point.is_drained()));
        if let Some(kept) = claims.kept {
            tally.registers.lists += 1;
            tally.registers.mixed_lists += u64::from(!kept.alone);
            self.list = kept.list;
        }
    }

    /// The next call and the register that it takes. With a register kept, half of the calls more are
    /// deposits and withdrawals.
    fn drawn(&self, random: &mut Random, gentle: bool, mixed: bool, kept: Option<&Kept>) -> (Case, Taken) {
        let mut call =
            || if gentle { gentle::call(random, &self.state) } else { list::call(random, &self.state) };
        let moves_lp = |case: &Case| matches!(case.kind, 4 | 5);
        let mut case = call();
        if kept.is_some() && !moves_lp(&case) {
            case = call();
        }
        let Some(kept) = kept.filter(|_| moves_lp(&case)) else {
            let other = moves_lp(&case) && random.chance(OTHER_ONE_IN);
            return if other {
                (registers::by_hand(random, &case), Taken::Other)
            } else {
                (case, Taken::None)
            };
        };
        match random.below(10) {
            0 if mixed => (case, Taken::None),
            1 if mixed => (registers::by_hand(random, &case), Taken::Other),
            _ => (registers::entered(random, &case, &kept.list), Taken::Kept),
        }
    }

    /// The rules' answer, and the list that a call with a register left.
    fn ask(&mut self, case: &Case, tally: &mut Tally) -> (model::After, Vec<u64>) {
        if case.form().is_call() {
            (asked(&self.state, case, &mut self.port, tally), vec![])
        } else {
            registered::asked(&self.state, case, &mut self.port, tally)
        }
    }

    fn next_call(&mut self, case: &Case, taken: Taken, claims: &mut Claims, tally: &mut Tally) {
        let supply = self.state.pool.supply;
        let (after, list) = self.ask(case, tally);
        // An accepted call's receipt begins with 0, a refused call's with its number.
        if self.port.receipt[0] == 0 {
            claims.afresh.count(&self.port.receipt);
        }
        if let Some(kept) = &mut claims.kept {
            if taken == Taken::Kept {
                kept.next(list, &self.port, case, tally);
            } else {
                kept.alone &= after.state.pool.supply == supply;
            }
        }
        claims.check(&self.port, case, tally);
        tally.list_calls[Group::of(case)] += 1;
        tally.ring_rounds[Group::of(case)] +=
            u64::from(after.state.pool.head.index < self.state.pool.head.index);
        self.state = after.state;
    }
}

struct Claims {
    afresh: Afresh,
    /// As the opening gave it.
    grid: Grid,
    points: Vec<Point>,
    /// The register that the list was opened with.
    kept: Option<Kept>,
}

impl Claims {
    /// At the point after this call: the ring, the register, afresh, floor, what stays, and rise from every earlier point.
    fn check(&mut self, port: &Port, case: &Case, tally: &mut Tally) {
        self.check_ring(port, case, tally);
        if let Some(kept) = &self.kept {
            kept.check(port, case, tally);
        }
        let held = Books::held(&port.pool, &port.ring);
        if held != self.afresh.books {
            tally.claim_fault("the books are not those reckoned afresh", case);
        }
        let Some(point) = Point::of(&held) else {
            return tally.claim_fault("the counters are above a vault", case);
        };
        if !point.floor_holds() {
            tally.claim_fault("the supply squared is above the product of the nets", case);
        }
        if !point.locked_stay() {
            tally.claim_fault("the supply is below 100", case);
        }
        if !point.nets_are_above_0() {
            tally.claim_fault("a net is 0", case);
        }
        if !self.points.iter().all(|earlier| point.rises_from(*earlier)) {
            tally.claim_fault("a share's worth falls", case);
        }
        tally.points += 1;
        tally.drained_points += u64::from(point.is_drained());
        tally.pairs += self.points.len() as u64;
        self.points.push(point);
    }

    /// Spacing and length stay, the index is before the length, and no number at or past it was ever
    /// written since the opening's zeros.
    fn check_ring(&self, port: &Port, case: &Case, tally: &mut Tally) {
        if port.pool[25..] != self.grid.words() {
            tally.claim_fault("spacing or length are not the opening's", case);
        }
        if port.pool[19] >= self.grid.length {
            tally.claim_fault("the index is at or past the length", case);
        }
        if port.ring[self.grid.used_words()..].iter().any(|number| *number != 0) {
            tally.claim_fault("an entry at or past the length is written", case);
        }
    }
}
