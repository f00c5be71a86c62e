//! A call with a register put to the rules and the port, beside the same call without one, about which the
//! original is asked too.

use crate::sides::{self, differing, FILL};
use crate::tally::Tally;
use model::register::{self, Registered};
use model::After;
use port::Port;
use record::{Case, State};

/// The rules' answer and the port's list. Each number of pool, ring, receipt and list is compared; where the
/// register refuses nothing, pool, ring and receipt are those of the port's call without one.
pub fn asked(before: &State, case: &Case, port: &mut Port, tally: &mut Tally) -> (After, Vec<u64>) {
    let Registered { after, holders } = register::run(before, case);
    let (holder, list) = case.register().expect("the call takes a register");
    let mut beside = port.clone();
    let without = register::without(case).ok();
    let number_without = without.map(|case| sides::asked(before, &case, &mut beside, tally).number);
    tally.answered(case, after.number);
    tally.registers.count(case, &after, &holders, number_without);
    let expected = sides::expected(&after, port);
    let mut lent = list.to_vec();
    let number = port.call_registered(case, &mut lent);
    if number != after.number || *port != expected || lent != holders {
        let what = differing(number, port, after.number, &expected);
        tally.port_fault(format!("{what}; the list {lent:?}, the rules {holders:?}"), case);
    }
    if number_without == Some(number) && *port != beside {
        tally.port_fault("not as without a register".into(), case);
    }
    // The caller's balance, and that of the first entry's number.
    for holder in [holder, list.first().copied().unwrap_or_default()] {
        balance_side(case, &lent, holder, tally);
    }
    (after, lent)
}

/// A balance that is read.
pub fn read(case: &Case, tally: &mut Tally) {
    let (holder, list) = case.register().expect("a balance is read from a register");
    balance_side(case, list, holder, tally);
}

/// Refused, nothing is written.
fn balance_side(case: &Case, list: &[u64], holder: u64, tally: &mut Tally) {
    let expected =
        register::balance(list, holder).map_or_else(|number| (number, FILL), |balance| (0, balance));
    let found = port::balance(list, holder, FILL);
    tally.registers.read(found.0);
    if found != expected {
        tally.port_fault(format!("the balance of {holder}: {found:?}, the rules {expected:?}"), case);
    }
}
