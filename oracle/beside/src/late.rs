//! The fault that started it all: refusals that the original reaches after it has booked.
//! Each list begins with an opening that document 01 accepts and ends with such a call.

use crate::driver::change;
use record::{Call, Case, Grid, Pool, State, POOL_COLUMNS};
use runner::{Change, Run};

struct Late {
    name: &'static str,
    /// Amounts, terms and rates.
    opening: [u64; 10],
    /// Kind and arguments of each call; the last is refused late.
    calls: &'static [&'static [u64]],
    number: u64,
    /// The columns that it had changed.
    booked: &'static [&'static str],
    /// The call and the argument of it that is the least which leaves this behind.
    least: (usize, usize),
}

const MOST: u64 = u64::MAX;
const FULL: [u64; 10] = [MOST, MOST, 0, 0, 0, 2500, 120_000, 40_000, 0, 0];
const STEEP: [u64; 10] = [1, 25_769_803_777, 0, 0, 0, 2500, 120_000, 40_000, 0, 0];

const LISTS: [Late; 7] = [
    Late {
        name: "A1 swap by input, vault past u64",
        opening: FULL,
        calls: &[&[2, 0, 3201, 0, 0]],
        number: 8,
        booked: &["protocol 0"],
        least: (0, 2),
    },
    Late {
        name: "A2 swap by output, vault past u64",
        opening: FULL,
        calls: &[&[3, 0, 3192, MOST, 0]],
        number: 8,
        booked: &["protocol 0"],
        least: (0, 2),
    },
    Late {
        name: "A3 swap by input, price times seconds past 2^128 - 1",
        opening: STEEP,
        calls: &[&[2, 0, 2, 0, 0], &[2, 0, 3201, 0, MOST]],
        number: 8,
        booked: &["vault 0", "vault 1", "protocol 0"],
        least: (1, 2),
    },
    Late {
        name: "A4 swap by output, price times seconds past 2^128 - 1",
        opening: STEEP,
        calls: &[&[2, 0, 2, 0, 0], &[3, 0, 12_872_803_390, MOST, MOST]],
        number: 8,
        booked: &["vault 0", "vault 1", "protocol 0"],
        least: (1, 2),
    },
    Late {
        name: "A5 swap by input, fund counter past u64",
        opening: [1_000_000, 4_000_000, 0, 0, 0, 999_999, 1, 999_999, 0, 0],
        calls: &[&[2, 0, 36_893_543_487_726, 0, 0], &[2, 0, MOST, 0, 0]],
        number: 11,
        booked: &["protocol 0"],
        least: (0, 2),
    },
    Late {
        name: "A6 swap by input, creator counter past u64",
        opening: [1_000_000, 4_000_000, 0, 1, 0, 1, 500_000, 500_000, 999_998, 0],
        calls: &[&[2, 0, 36_893_561_934_543, 0, 0], &[2, 0, MOST, 0, 0]],
        number: 11,
        booked: &["protocol 0", "fund 0"],
        least: (0, 2),
    },
    Late {
        name: "A7 deposit, vault 1 past u64",
        opening: [MOST - 1, MOST, 0, 0, 0, 2500, 120_000, 40_000, 0, 0],
        calls: &[&[4, 1, MOST, MOST]],
        number: 8,
        booked: &["vault 0"],
        least: (0, 1),
    },
];

/// Prints what each leaves behind; whether each is refused late with its number, and no
/// longer leaves the same where its least argument is one less.
pub fn all() -> bool {
    let held: Vec<bool> = LISTS.iter().map(Late::holds).collect();
    println!(
        "{} of {} late refusals as docs/DIFFERENCES.md says",
        held.iter().filter(|held| **held).count(),
        held.len()
    );
    held.iter().all(|held| *held)
}

/// Each opening and each call of the lists as a case, for the sample.
pub fn cases() -> Vec<Case> {
    LISTS.iter().flat_map(Late::cases).collect()
}

type Calls = Vec<Vec<u64>>;

impl Late {
    /// With points and maximums of 0, spacing 15 and length 100.
    fn opening_words(&self) -> Vec<u64> {
        [&self.opening[..], &[0; 4], &Grid::DEFAULT.words()].concat()
    }

    fn calls(&self) -> Calls {
        self.calls.iter().map(|call| call.to_vec()).collect()
    }

    fn cases(&self) -> Vec<Case> {
        let calls = self.calls();
        let mut cases = vec![Case { kind: 1, columns: self.opening_words() }];
        for count in 1..=calls.len() {
            let (state, last) = self.before_last(&calls[..count]);
            cases.push(Case::of_call(&state, last[0], &last[1..]));
        }
        cases
    }

    /// The state before the last call, and that call.
    fn before_last(&self, calls: &[Vec<u64>]) -> (State, Vec<u64>) {
        let (last, earlier) = calls.split_last().expect("a list holds a call");
        let opening = Call::from_words(1, &self.opening_words()).expect("an opening takes sixteen words");
        let mut after = model::run(&model::empty(), &opening);
        for call in earlier {
            assert!(after.number == 0, "{}: every call but the last is accepted", self.name);
            after = model::run(&after.state, &read(call));
        }
        (after.state, last.clone())
    }

    fn holds(&self) -> bool {
        let (state, last) = self.before_last(&self.calls());
        let run = run(&state, &last);
        println!("{}\n  opening {:?}, calls {:?}", self.name, self.opening, self.calls);
        let changes: Vec<String> = run.booked.iter().map(change).collect();
        println!("  refused with {}, had booked {}", run.number, changes.join(", "));
        print_loss(&state, &run.booked);
        self.is_shown_by(&run) && !self.is_shown_by(&self.one_less())
    }

    fn one_less(&self) -> Run {
        let mut calls = self.calls();
        calls[self.least.0][self.least.1] -= 1;
        let (state, last) = self.before_last(&calls);
        run(&state, &last)
    }

    fn is_shown_by(&self, run: &Run) -> bool {
        let columns: Vec<&str> = run.booked.iter().map(|change| change.column.as_str()).collect();
        run.number == self.number && columns == self.booked
    }
}

/// What all LP tokens are worth before and after, had nothing been rolled back: the nets.
fn print_loss(state: &State, booked: &[Change]) {
    let worth = |pool: &Pool| match model::calls::nets(pool) {
        Ok(nets) => format!("{nets:?}"),
        Err(number) => format!("refusal {number}"),
    };
    let (before, after) = (worth(&state.pool), worth(&with_changes(&state.pool, booked)));
    println!("  all LP tokens are worth {before} before it, {after} after it\n");
}

fn with_changes(pool: &Pool, booked: &[Change]) -> Pool {
    let mut words = pool.words();
    for change in booked {
        if let Some(at) = POOL_COLUMNS.iter().position(|column| *column == change.column) {
            words[at] = change.after;
        }
    }
    Pool::from_words(&words).expect("the original keeps yes and no")
}

fn read(call: &[u64]) -> Call {
    Call::from_words(call[0], &call[1..]).expect("the list holds calls")
}

fn run(state: &State, call: &[u64]) -> Run {
    assert!(Case::of_call(state, call[0], &call[1..]).original_decides(), "a late refusal is the original's");
    runner::run(state, &read(call)).expect("the Rust has this call")
}
