//! What was counted, and the faults.

use crate::registers::Registers;
use crate::rings::Rings;
use crate::sides::Fault;
use crate::slices::Slices;
use beside::generator::charges::most_arriving;
use beside::left::{is_as_told, LeftCounts};
use beside::page;
use beside::verdict::Side;
use record::{Answer, Call, Case, Grid, Left, LOCKED_LP};
use std::collections::BTreeMap;
use std::ops::{Index, IndexMut};
use std::time::Instant;

/// Faults past this number are only counted.
const KEPT_FAULTS: usize = 20;
const PROGRESS_EVERY: u64 = 500_000;
const ONE_TOO_FEW: u64 = LOCKED_LP - 1;

pub struct Class {
    pub side: Side,
    pub rows: &'static str,
    pub count: u64,
}

pub type Answers = BTreeMap<(u64, u64), u64>;

/// What a call is counted with: points above 0 of either token, else another spacing than 15 or another
/// length than 100, else neither.
#[derive(Clone, Copy)]
pub enum Group {
    Usual,
    OtherGrid,
    Charged,
}

impl Group {
    pub fn of(case: &Case) -> Group {
        if case.bears_charges() {
            Group::Charged
        } else if case.grid() != Some(Grid::DEFAULT) {
            Group::OtherGrid
        } else {
            Group::Usual
        }
    }
}

/// One of each group.
#[derive(Default)]
pub struct Groups<T>([T; 3]);

impl<T> Index<Group> for Groups<T> {
    type Output = T;

    fn index(&self, group: Group) -> &T {
        &self.0[group as usize]
    }
}

impl<T> IndexMut<Group> for Groups<T> {
    fn index_mut(&mut self, group: Group) -> &mut T {
        &mut self.0[group as usize]
    }
}

impl Groups<u64> {
    pub fn sum(&self) -> u64 {
        self.0.iter().sum()
    }
}

pub struct Tally {
    wanted: u64,
    start: Instant,
    pub calls: u64,
    /// Calls on pools of each group; openings are on none.
    pub on_pools: Groups<u64>,
    /// By kind and number.
    pub answers: Groups<Answers>,
    /// Where 14 was answered: for a swap's output, its input, a deposit.
    pub fourteens: [u64; 3],
    /// Withdrawals that left just the locked LP, and those refused with 15: for all LP, for one too many.
    pub drained: u64,
    pub fifteens: [u64; 2],
    pub classes: BTreeMap<String, Class>,
    /// Calls that were not compared with the original.
    pub left: LeftCounts,
    /// Calls on records with a flag that is neither 0 nor 1.
    pub wrong_flags: u64,
    pub lists: Groups<u64>,
    pub list_calls: Groups<u64>,
    /// How often lists went around the ring.
    pub ring_rounds: Groups<u64>,
    pub rings: Rings,
    pub registers: Registers,
    pub slices: Slices,
    pub points: u64,
    pub pairs: u64,
    /// Points with just the locked LP, and lists that end with one.
    pub drained_points: u64,
    pub drained_lists: u64,
    pub port_faults: u64,
    pub original_faults: u64,
    pub claim_faults: u64,
    pub faults: Vec<Fault>,
}

impl Tally {
    pub fn of(wanted: u64) -> Tally {
        Tally {
            wanted,
            start: Instant::now(),
            calls: 0,
            on_pools: Groups::default(),
            answers: Groups::default(),
            fourteens: [0; 3],
            drained: 0,
            fifteens: [0; 2],
            classes: BTreeMap::new(),
            left: LeftCounts::default(),
            wrong_flags: 0,
            lists: Groups::default(),
            list_calls: Groups::default(),
            ring_rounds: Groups::default(),
            rings: Rings::default(),
            registers: Registers::default(),
            slices: Slices::default(),
            points: 0,
            pairs: 0,
            drained_points: 0,
            drained_lists: 0,
            port_faults: 0,
            original_faults: 0,
            claim_faults: 0,
            faults: Vec::new(),
        }
    }

    pub fn is_clean(&self) -> bool {
        self.all_faults() == 0
    }

    fn all_faults(&self) -> u64 {
        self.port_faults + self.original_faults + self.claim_faults + self.slices.faults
    }

    pub fn seconds(&self) -> f64 {
        self.start.elapsed().as_secs_f64()
    }

    pub fn answered(&mut self, case: &Case, number: u64) {
        let group = Group::of(case);
        *self.answers[group].entry((case.kind, number)).or_default() += 1;
        self.on_pools[group] += u64::from(!matches!(case.kind, 1 | 41));
        if number == 14 {
            self.fourteens[place_of_14(case)] += 1;
        }
        if let Some(Call::Withdrawal { lp, .. }) = case.call() {
            self.count_left(number, lp, case.pool().supply);
        }
        self.calls += 1;
        if self.calls.is_multiple_of(PROGRESS_EVERY) {
            self.print_progress();
        }
    }

    /// What an accepted withdrawal left, or one that is refused with 15 would have.
    fn count_left(&mut self, number: u64, lp: u64, supply: u64) {
        match (number, supply.checked_sub(lp)) {
            (0, Some(LOCKED_LP)) => self.drained += 1,
            (15, Some(0)) => self.fifteens[0] += 1,
            (15, Some(ONE_TOO_FEW)) => self.fifteens[1] += 1,
            _ => {}
        }
    }

    fn print_progress(&self) {
        let seconds = self.seconds();
        let left = self.wanted.saturating_sub(self.calls) as f64 * seconds / self.calls as f64;
        let faults = self.all_faults();
        eprintln!(
            "{} of {} calls, {faults} faults, {seconds:.0} s, {left:.0} s to go",
            self.calls, self.wanted
        );
    }

    /// A class that the page has no row for is a fault.
    pub fn classed(&mut self, side: Side, name: String, case: &Case) {
        match page::rows(&name) {
            Some(rows) => {
                self.classes.entry(name).or_insert(Class { side, rows, count: 0 }).count += 1;
            }
            None => self.original_fault(format!("no row for: {name}"), case),
        }
    }

    /// A case of which document 02 says otherwise should not have been left.
    pub fn left_to_model(&mut self, left: Left, document: &Answer, case: &Case) {
        self.left.add(left);
        if !is_as_told(left, case, document) {
            let number = document.number;
            self.original_fault(format!("{left}: not so, where the rules give {number}"), case);
        }
    }

    pub fn port_fault(&mut self, what: String, case: &Case) {
        self.port_faults += 1;
        self.keep(format!("the port beside the rules: {what}"), case);
    }

    pub fn original_fault(&mut self, what: String, case: &Case) {
        self.original_faults += 1;
        self.keep(format!("the original beside the rules: {what}"), case);
    }

    pub fn claim_fault(&mut self, what: &str, case: &Case) {
        self.claim_faults += 1;
        self.keep(format!("demand 3: {what}"), case);
    }

    pub fn register_fault(&mut self, what: &str, case: &Case) {
        self.claim_faults += 1;
        self.keep(format!("02 (g): {what}"), case);
    }

    pub fn slices_fault(&mut self, what: String, case: &Case) {
        self.slices.faults += 1;
        self.keep(format!("02 (h): {what}"), case);
    }

    fn keep(&mut self, what: String, case: &Case) {
        if self.faults.len() < KEPT_FAULTS {
            let fault = Fault { what, case: case.line() };
            eprintln!("{}\n  {}", fault.what, fault.case);
            self.faults.push(fault);
        }
    }
}

/// A swap's output where more is wanted than can arrive, else its input; or a deposit.
fn place_of_14(case: &Case) -> usize {
    match case.call() {
        Some(Call::SwapByOutput(swap)) => {
            let charge = case.pool().charges[usize::from(swap.direction == 0)];
            usize::from(swap.amount <= most_arriving(charge))
        }
        _ => 2,
    }
}
