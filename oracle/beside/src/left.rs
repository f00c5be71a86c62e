//! How many cases a run beside the original leaves to the model, and why; whether they are such as
//! document 02 says.

use crate::verdict::{verdict, Side};
use record::{Answer, Case, Grid, Left, RingHead, POOL_COLUMNS, RECEIPT_LENGTH};
use runner::Outcome;
use std::collections::BTreeMap;

/// Whether the rules give the number that document 02 gives to such cases, where it gives one. By (e)
/// these are withdrawals that the original accepts, and of that alone it is asked; by (f) swaps of which
/// only the ring is no longer its own, and it is asked of the rest; by (g) calls with a register, and it is
/// asked about those without.
pub fn is_as_told(left: Left, case: &Case, document: &Answer) -> bool {
    let told = left.number().is_none_or(|told| told == document.number);
    told && match left {
        Left::LockedLp => original_accepts(case),
        Left::OtherGrid => only_ring_is_left(case, document),
        Left::Register => only_register_is_left(case, document),
        _ => true,
    }
}

/// Where it has no such status, fee model or index, it has nothing to refuse either.
fn original_accepts(case: &Case) -> bool {
    match runner::answer(case) {
        Outcome::Answered { answer, .. } => answer.number == 0,
        Outcome::Absent(_) => true,
        Outcome::Wide(_) => false,
    }
}

/// The numbers of the ring's own tests.
const OF_THE_RING: [u64; 2] = [8, 11];

/// The same swap on an unused ring of spacing 15 and length 100, which accepts whatever comes, is decided
/// by both sides alike. A refusal there is the case's too; where it is accepted, the case is refused by its
/// ring, or receipt and pool are the same but for the ring's columns.
fn only_ring_is_left(case: &Case, document: &Answer) -> bool {
    let Some(unused) = on_unused_ring(case).as_ref().map(verdict) else {
        return true;
    };
    let as_unused = match (unused.document.number, document.number) {
        (0, 0) => same_but_for_ring(&unused.document, document),
        (0, number) => OF_THE_RING.contains(&number),
        (unused, number) => unused == number,
    };
    as_unused && matches!(unused.side, Side::Both | Side::DocumentAlone)
}

/// The numbers of the last two tests of a deposit with a register.
const OF_THE_ENTRY: [u64; 2] = [8, 16];

/// A list that is no register and a holder 0 are refused with 3. Else the same call without a register is decided
/// as ever: a refusal there is the case's too, with the list as it was; where it is accepted, receipt and
/// pool are the same, or the holder's entry is refused.
fn only_register_is_left(case: &Case, document: &Answer) -> bool {
    let (Some((_, list)), true) = (case.register(), case.form().is_registered_call()) else {
        return true;
    };
    let list_after = case.list_after(document);
    let list_stays = document.number == 0 || list == list_after;
    let Some(without) = model::register::without(case).ok().as_ref().map(verdict) else {
        return list_stays && document.number == 3;
    };
    let as_without = match (without.document.number, document.number) {
        (0, number @ 1..) => OF_THE_ENTRY.contains(&number),
        (number, other) => number == other && document.values.starts_with(&without.document.values),
    };
    list_stays && as_without && without.side != Side::Unlisted
}

/// The same call on an unused ring of spacing 15 and length 100; none of a function alone.
pub fn on_unused_ring(case: &Case) -> Option<Case> {
    case.call()?;
    let mut state = case.state();
    (state.pool.head, state.pool.grid) = (RingHead::default(), Grid::DEFAULT);
    Some(Case::of_call(&state, case.kind, case.arguments()))
}

fn same_but_for_ring(one: &Answer, other: &Answer) -> bool {
    let of_ring = |at: usize| {
        let column = at.checked_sub(RECEIPT_LENGTH).map(|at| POOL_COLUMNS.get(at).unwrap_or(&"ring entry"));
        column.is_some_and(|column| column.starts_with("ring") || ["spacing", "length"].contains(column))
    };
    let mut numbers = one.values.iter().zip(&other.values).enumerate();
    numbers.all(|(at, (one, other))| one == other || of_ring(at))
}

#[derive(Default)]
pub struct LeftCounts(pub BTreeMap<Left, u64>);

impl LeftCounts {
    pub fn of<'a>(cases: impl Iterator<Item = &'a Case>) -> LeftCounts {
        let mut counts = LeftCounts::default();
        cases.filter_map(Case::left_to_model).for_each(|left| counts.add(left));
        counts
    }

    pub fn add(&mut self, left: Left) {
        *self.0.entry(left).or_default() += 1;
    }

    pub fn sum(&self) -> u64 {
        self.0.values().sum()
    }

    pub fn print(&self) {
        for (left, count) in &self.0 {
            println!("left to the model: {count} cases, {left}");
        }
    }
}
