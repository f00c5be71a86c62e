//! The original beside the rules on one case: they agree, or they differ in a class that
//! docs/DIFFERENCES.md names, or they differ in none of those, which must never be seen. A case that
//! the original no longer decides is not compared with it.

use crate::left::is_as_told;
use crate::reasons;
use model::answer as document;
use record::{Answer, Case};
use runner::{answer as original, Cause, Change, Outcome};

#[derive(Clone, Copy, Debug, PartialEq, Eq, PartialOrd, Ord)]
pub enum Side {
    /// The original answers as the rules do.
    Both,
    /// Document 01 alone rules.
    DocumentAlone,
    /// Document 02 leaves the case to the model.
    Left,
    /// A difference that no class explains, or one from what document 02 says of a case that it leaves.
    Unlisted,
}

pub struct Verdict {
    pub side: Side,
    /// What the case shows, as docs/DIFFERENCES.md names it; empty where nothing stands out.
    pub class: String,
    pub document: Answer,
    /// None where the case is left to the model.
    pub original: Option<Outcome>,
}

pub fn verdict(case: &Case) -> Verdict {
    let document = document(case);
    if let Some(left) = case.left_to_model() {
        let class = format!("{} {}: {left}", case.form().name, document.number);
        let as_told = is_as_told(left, case, &document);
        let side = if as_told { Side::Left } else { Side::Unlisted };
        return Verdict { side, class, document, original: None };
    }
    let original = original(case);
    let (side, class) = classed(case, &document, &original);
    Verdict { side, class, document, original: Some(original) }
}

/// The side that rules, and the class.
pub fn classed(case: &Case, document: &Answer, original: &Outcome) -> (Side, String) {
    match original {
        Outcome::Absent(reason) => (Side::DocumentAlone, format!("not in the Rust: {reason}")),
        Outcome::Wide(_) => wide(case, document),
        Outcome::Answered { answer, booked, cause } if answer == document => {
            same(case, document, booked, cause)
        }
        Outcome::Answered { answer, .. } => differs(case, answer, document),
    }
}

fn wide(case: &Case, document: &Answer) -> (Side, String) {
    let expected = if case.kind < 20 { 8 } else { 11 };
    if document.number == expected {
        (Side::DocumentAlone, format!("{} alone: result past u64", case.form().name))
    } else {
        (Side::Unlisted, "result past u64".into())
    }
}

/// The same answer, and how the original came to it.
fn same(case: &Case, document: &Answer, booked: &[Change], cause: &Cause) -> (Side, String) {
    let name = case.form().name;
    let number = document.number;
    let left = if booked.is_empty() { "" } else { ", after booking" };
    match cause {
        Cause::None => (Side::Both, String::new()),
        Cause::Panic(place) => (Side::Both, format!("{name} {number}: panic at {place}{left}")),
        Cause::StandIn => (Side::DocumentAlone, format!("{name} {number}: vault past u64{left}")),
        Cause::Check if booked.is_empty() => (Side::Both, String::new()),
        Cause::Check => (Side::Both, format!("{name} {number}: check{left}")),
    }
}

/// A class is only given where the case itself shows its reason, reckoned here once more.
fn differs(case: &Case, original: &Answer, document: &Answer) -> (Side, String) {
    let name = case.form().name;
    let class = match (case.kind, original.number, document.number) {
        (2 | 3, _, 3) if reasons::rates_past_limits(case) => "rates past the limits".into(),
        (3, 4, 11) if reasons::input_past_u64(case) => format!("{name}: input far above u64"),
        (15, 11, 8) if reasons::rate_sum_past_u64(case) => format!("{name} alone: rate sum past u64"),
        (6, 0, 7) if reasons::vault_short(original) => format!("{name}: a vault can't pay the creators"),
        (6, 0, 0) if reasons::only_paid_out(original, document) => {
            format!("{name}: the vaults pay the creators")
        }
        (kind, was, is) => return (Side::Unlisted, format!("kind {kind}: the Rust {was}, the rules {is}")),
    };
    (Side::DocumentAlone, class)
}
