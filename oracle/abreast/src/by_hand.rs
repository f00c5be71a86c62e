//! Calls on pools built by hand, with any numbers.

use crate::registered;
use crate::sides::{asked, FILL};
use crate::tally::Tally;
use beside::generator::{hand, registers, Draws};
use beside::random::Random;
use port::Port;
use record::Case;

/// Where the record has its two flags, and what a record with a wrong one is refused with.
const FLAGS: [usize; 2] = [12, 18];
const INVALID_INPUT: u64 = 3;
const WRONG_FLAG_ONE_IN: u64 = 100;
/// One call in so many takes a register.
const REGISTER_ONE_IN: u64 = 8;

pub fn run_one(random: &mut Random, draws: Draws, tally: &mut Tally) {
    let takes_register = random.chance(REGISTER_ONE_IN);
    let case = if takes_register { registers::case(random, draws) } else { hand::case(random, draws) };
    run_case(&case, tally);
    // An opening reads no record, and a balance is read from none.
    if !matches!(case.kind, 40 | 41) && random.chance(WRONG_FLAG_ONE_IN) {
        wrong_flag(random, &case, tally);
    }
}

/// A case that is a call or the reading of a balance; the other functions alone are not the library's.
pub fn run_case(case: &Case, tally: &mut Tally) {
    let form = case.form();
    if form.is_call() || form.is_registered_call() {
        let state = case.state();
        let mut port = Port::of(&state, FILL);
        if form.is_call() {
            asked(&state, case, &mut port, tally);
        } else {
            registered::asked(&state, case, &mut port, tally);
        }
    } else if form.takes_list() {
        registered::read(case, tally);
    }
}

/// A record that is no pool is refused, whatever the call, and only the receipt is written.
fn wrong_flag(random: &mut Random, case: &Case, tally: &mut Tally) {
    let mut port = Port::of(&case.state(), FILL);
    port.pool[random.pick(&FLAGS)] = 2 + random.any() / 2;
    let expected = port.refused(INVALID_INPUT);
    let number = match (case.call(), case.register()) {
        (Some(call), _) => port.call(&call),
        (None, list) => {
            let (_, list) = list.expect("calls by hand are calls, with a register or without");
            let mut lent = list.to_vec();
            let number = port.call_registered(case, &mut lent);
            if lent != list {
                tally.port_fault("a wrong flag in the record, and the list is written".into(), case);
            }
            number
        }
    };
    let nets = port.nets(FILL);
    tally.wrong_flags += 1;
    if number != INVALID_INPUT || port != expected || nets != (INVALID_INPUT, [FILL; 2]) {
        tally.port_fault(format!("a wrong flag in the record gives {number}"), case);
    }
}
