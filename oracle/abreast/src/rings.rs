//! What the price rings of another spacing or length did, and how many calls there were at which.

use beside::left::on_unused_ring;
use model::After;
use record::{entry_at, Case, Grid, State, RING_ENTRIES};

/// The greatest number of each class, and its name.
type Classes = [(u64, &'static str); 7];

pub const SPACINGS: Classes = [
    (0, "0"),
    (1, "1"),
    (14, "2 to 14"),
    (15, "15"),
    (3599, "16 to 3,599"),
    (3600, "3,600"),
    (u64::MAX, "above"),
];
pub const LENGTHS: Classes =
    [(0, "0"), (1, "1"), (2, "2"), (98, "3 to 98"), (99, "99"), (100, "100"), (u64::MAX, "above")];

#[derive(Default)]
pub struct Rings {
    /// Swaps at first use, that overwrote the newest entry, that moved on, and of these from the last entry
    /// to the first.
    pub begun: u64,
    pub overwritten: u64,
    pub moved_on: u64,
    pub around: u64,
    /// 11 in the ring's first step: for a length above 100, an index at the length, an index past it.
    pub too_long: u64,
    pub at_length: u64,
    pub past_length: u64,
    /// Calls by the classes of spacing and length.
    pub calls: [[u64; 7]; 7],
}

impl Rings {
    pub fn count(&mut self, before: &State, case: &Case, after: &After) {
        let Some(grid) = case.grid() else {
            return;
        };
        self.calls[class(&SPACINGS, grid.spacing)][class(&LENGTHS, grid.length)] += 1;
        if grid == Grid::DEFAULT || !matches!(case.kind, 2 | 3) {
            return;
        }
        match after.number {
            0 => self.count_step(before, &after.state),
            11 if fails_first_step(case, grid) => self.count_refusal(grid, before.pool.head.index),
            _ => {}
        }
    }

    fn count_step(&mut self, before: &State, after: &State) {
        let [old, new] = [before, after].map(|state| state.pool.head);
        let [old_entry, new_entry] =
            [before, after].map(|state| entry_at(&state.ring, state.pool.head.index));
        let stays = old.index == new.index && old_entry[0] == new_entry[0];
        if !old.used {
            self.begun += 1;
        } else if !stays {
            self.moved_on += 1;
            self.around += u64::from(new.index == 0);
        } else if old_entry != new_entry {
            self.overwritten += 1;
        }
    }

    fn count_refusal(&mut self, grid: Grid, index: u64) {
        if grid.length > RING_ENTRIES as u64 {
            self.too_long += 1;
        } else if index == grid.length {
            self.at_length += 1;
        } else {
            self.past_length += 1;
        }
    }
}

/// Whether the ring refuses, and not a test before it: on an unused ring the swap is accepted.
fn fails_first_step(case: &Case, grid: Grid) -> bool {
    let refused = grid.length > RING_ENTRIES as u64 || case.pool().head.index >= grid.length;
    refused && on_unused_ring(case).is_some_and(|unused| model::answer(&unused).number == 0)
}

fn class(classes: &Classes, number: u64) -> usize {
    classes.iter().position(|(most, _)| number <= *most).expect("the last class takes every number")
}
