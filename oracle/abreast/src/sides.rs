//! One call put to the three sides.

use crate::tally::Tally;
use beside::verdict::{classed, Side};
use model::After;
use port::Port;
use record::{call_answer, Answer, Call, Case, State};
use runner::Outcome;

/// Fills what the call has to write, or may not.
pub const FILL: u64 = 0xA5A5_A5A5_A5A5_A5A5;

/// What went wrong, and with which case.
pub struct Fault {
    pub what: String,
    pub case: String,
}

/// The rules' answer. The port's memory holds the state before the call, or anything at all
/// where it is an opening, and then what the call left.
pub fn asked(before: &State, case: &Case, port: &mut Port, tally: &mut Tally) -> After {
    let call = case.call().expect("only calls are put to the port");
    let document = model::run(before, &call);
    tally.answered(case, document.number);
    tally.rings.count(before, case, &document);
    port_side(case, &call, &document, port, tally);
    if case.kind != 1 {
        past_length_side(before, case, port, tally);
    }
    let answer = call_answer(case.kind, document.number, &document.receipt, &document.state);
    match case.left_to_model() {
        Some(left) => tally.left_to_model(left, &answer, case),
        None => original_side(before, case, &call, (&document, &answer), tally),
    }
    document
}

/// No call writes to entries at or past the length; only an opening sets them to 0.
fn past_length_side(before: &State, case: &Case, port: &Port, tally: &mut Tally) {
    let used = before.pool.grid.used_words();
    if port.ring[used..] != before.ring.as_flattened()[used..] {
        tally.port_fault("an entry at or past the length is written".into(), case);
    }
}

/// The port gives the rules' whole answer, and of a refused call writes only the receipt.
fn port_side(case: &Case, call: &Call, document: &After, port: &mut Port, tally: &mut Tally) {
    let expected = expected(document, port);
    let number = port.call(call);
    if number != document.number || *port != expected {
        tally.port_fault(differing(number, port, document.number, &expected), case);
    }
    nets_side(case, port, tally);
}

/// What the memory must hold after a call that the rules answer so. Its receipt is filled before the call.
pub fn expected(document: &After, port: &mut Port) -> Port {
    port.receipt.fill(FILL);
    match document.number {
        0 => Port::with(&document.state, &document.receipt),
        number => port.refused(number),
    }
}

/// The two nets of what the call left.
fn nets_side(case: &Case, port: &Port, tally: &mut Tally) {
    let Some(pool) = record::Pool::from_words(&port.pool) else {
        return tally.port_fault("the port left a flag that is neither 0 nor 1".into(), case);
    };
    let expected = model::calls::nets(&pool).map_or_else(|number| (number, [FILL; 2]), |nets| (0, nets));
    if port.nets(FILL) != expected {
        tally.port_fault("the nets".into(), case);
    }
}

pub fn differing(number: u64, port: &Port, expected_number: u64, expected: &Port) -> String {
    let mut places = Vec::new();
    let mut compare = |name: &str, left: &[u64], right: &[u64]| {
        let at = left.iter().zip(right).position(|(left, right)| left != right);
        places.extend(at.map(|at| format!("{name} {at}: the port {}, the rules {}", left[at], right[at])));
    };
    compare("number", &[number], &[expected_number]);
    compare("receipt", &port.receipt, &expected.receipt);
    compare("pool", &port.pool, &expected.pool);
    compare("ring", &port.ring, &expected.ring);
    places.join("; ")
}

/// The original gives the same whole answer, or differs as a row of docs/DIFFERENCES.md says.
fn original_side(
    before: &State,
    case: &Case,
    call: &Call,
    (document, answer): (&After, &Answer),
    tally: &mut Tally,
) {
    let original = match runner::run(before, call) {
        Err(reason) => Outcome::Absent(reason),
        Ok(run) => {
            let both_accept = run.number == 0 && document.number == 0;
            if both_accept && run.state.ring != document.state.ring {
                tally.original_fault("the ring".into(), case);
            }
            run.outcome(case.kind)
        }
    };
    let (side, class) = classed(case, answer, &original);
    if side == Side::Unlisted {
        tally.original_fault(class, case);
    } else if !class.is_empty() {
        tally.classed(side, class, case);
    }
}
