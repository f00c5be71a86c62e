//! One call, or one function alone, with all that it takes: a line of decimal numbers.

use crate::call::{Call, Receipt, RECEIPT_COLUMNS, RECEIPT_LENGTH};
use crate::form::{form, Form, On};
use crate::pool::{Grid, Pool, State, POOL_COLUMNS, POOL_LENGTH};
use crate::ring::{entry_at, filled_ring, RingAlone, ENTRY_COLUMNS, ENTRY_LENGTH, RING_ENTRIES, RING_LENT};
use std::ops::Range;

/// Where a swap's case has the ring's newest entry: behind the pool.
const ENTRY: Range<usize> = POOL_LENGTH..POOL_LENGTH + ENTRY_LENGTH;
const RING_INDEX: usize = 19;

/// The columns are what the form names: pool, entry, arguments; behind them the list of what takes one.
#[derive(Clone, Debug, PartialEq, Eq)]
pub struct Case {
    pub kind: u64,
    pub columns: Vec<u64>,
}

/// Number 0 is accepted. The values of a call are its receipt, the pool and, for a swap,
/// the entry at the ring's index, for a call with a register the list.
#[derive(Clone, Debug, PartialEq, Eq)]
pub struct Answer {
    pub number: u64,
    pub values: Vec<u64>,
}

impl Case {
    /// None where the line is no case.
    pub fn read(line: &str) -> Option<Case> {
        let words: Option<Vec<u64>> = line.split(' ').map(|word| word.parse().ok()).collect();
        let (kind, columns) = words?.split_first().map(|(kind, columns)| (*kind, columns.to_vec()))?;
        let case = Case { kind, columns };
        case.is_whole().then_some(case)
    }

    pub fn line(&self) -> String {
        joined(std::iter::once(&self.kind).chain(&self.columns))
    }

    pub fn form(&self) -> &'static Form {
        form(self.kind).expect("a case is made of a known kind")
    }

    pub fn arguments(&self) -> &[u64] {
        &self.columns[self.form().columns_before()..]
    }

    /// The pool that a call acts on; a case without a pool acts on zeros.
    pub fn pool(&self) -> Pool {
        match self.form().on {
            On::Nothing => Pool::default(),
            _ => Pool::from_words(&self.columns[..POOL_LENGTH]).expect("a case holds a whole pool"),
        }
    }

    /// The pool with its ring, of which a case has at most the entry at the index.
    pub fn state(&self) -> State {
        let entry = match self.form().on {
            On::PoolAndEntry => self.columns[ENTRY].try_into().expect("an entry has five words"),
            _ => [0; 5],
        };
        let pool = self.pool();
        State { pool, ring: filled_ring(pool.head.index, entry) }
    }

    /// Whether its pool has points above 0 of either token, or what it opens or charges has.
    pub fn bears_charges(&self) -> bool {
        match self.kind {
            1 | 41 => self.columns[10] != 0 || self.columns[12] != 0,
            18 | 19 => self.columns[1] != 0,
            _ => self.pool().bears_charges(),
        }
    }

    /// Spacing and length of its pool, of what it opens or of the ring alone; none where it has no ring.
    pub fn grid(&self) -> Option<Grid> {
        match (self.kind, self.call()) {
            (_, Some(Call::Opening(opening))) => Some(opening.grid),
            (_, Some(_)) | (44 | 45, None) => Some(self.pool().grid),
            (41, None) => Some(Grid { spacing: self.columns[14], length: self.columns[15] }),
            (30 | 36, None) => RingAlone::from_words(&self.columns).map(|ring| ring.grid),
            _ => None,
        }
    }

    /// The call; none of a function alone or a call with a register.
    pub fn call(&self) -> Option<Call> {
        Call::from_words(self.kind, self.arguments())
    }

    /// The holder and the list of what takes a register.
    pub fn register(&self) -> Option<(u64, &[u64])> {
        let form = self.form();
        let list = form.columns_before() + form.arguments.len();
        form.takes_list().then(|| (self.columns[list - 1], &self.columns[list..]))
    }

    /// The case of a call on this state, of which it takes what its form names.
    pub fn of_call(state: &State, kind: u64, arguments: &[u64]) -> Case {
        let form = form(kind).expect("a call is of a known kind");
        let mut columns = Vec::with_capacity(form.columns_before() + arguments.len());
        if form.on != On::Nothing {
            columns.extend(state.pool.words());
        }
        if form.on == On::PoolAndEntry {
            columns.extend(entry_at(&state.ring, state.pool.head.index));
        }
        columns.extend(arguments);
        Case { kind, columns }
    }

    /// Whether it has its form's columns, 0 or 1 where a yes or no is due, and no entry at
    /// an index past the ring.
    pub fn is_whole(&self) -> bool {
        let Some(form) = form(self.kind) else {
            return false;
        };
        let before = form.columns_before();
        let list = self.columns.len().checked_sub(before + form.arguments.len());
        list.is_some_and(|numbers| numbers == 0 || form.takes_list())
            && (before == 0 || Pool::from_words(&self.columns[..POOL_LENGTH]).is_some())
            && !(self.kind == 22 && self.columns[4] > 1)
            && !(matches!(self.kind, 30 | 36) && self.columns[0] > 1)
            && self.entry_is_in_ring()
    }

    /// Whether an answer to this case has these numbers in these columns.
    pub fn shows(&self, answer: &Answer, columns: &[(&str, u64)]) -> bool {
        columns.iter().all(|(name, number)| self.column(answer, name) == Some(*number))
    }

    /// The list that an answer to this call with a register gives, behind receipt and pool.
    pub fn list_after<'a>(&self, answer: &'a Answer) -> &'a [u64] {
        if self.form().is_registered_call() {
            &answer.values[RECEIPT_LENGTH + POOL_LENGTH..]
        } else {
            &[]
        }
    }

    fn column(&self, answer: &Answer, name: &str) -> Option<u64> {
        let form = self.form();
        let at = if form.is_registered_call() {
            RECEIPT_COLUMNS.iter().chain(&POOL_COLUMNS).position(|column| *column == name)
        } else if form.is_call() {
            let mut columns = RECEIPT_COLUMNS.iter().chain(&POOL_COLUMNS).chain(&ENTRY_COLUMNS);
            columns.position(|column| *column == name)
        } else {
            form.values.iter().position(|column| *column == name)
        };
        answer.values.get(at?).copied()
    }

    fn entry_is_in_ring(&self) -> bool {
        let (index, entry) = match self.kind {
            2 | 3 => (self.columns[RING_INDEX], &self.columns[ENTRY]),
            30 | 36 => (self.columns[1], &self.columns[5..RING_LENT]),
            _ => return true,
        };
        index < RING_ENTRIES as u64 || entry.iter().all(|word| *word == 0)
    }
}

impl Answer {
    pub fn line(&self) -> String {
        joined(std::iter::once(&self.number).chain(&self.values))
    }

    /// A function alone that is refused gives zeros.
    pub fn refused(number: u64, values: usize) -> Answer {
        Answer { number, values: vec![0; values] }
    }
}

/// A call's answer in the columns of its kind.
pub fn call_answer(kind: u64, number: u64, receipt: &Receipt, state: &State) -> Answer {
    let mut values = Vec::with_capacity(RECEIPT_LENGTH + POOL_LENGTH + ENTRY_LENGTH);
    values.extend(receipt.words());
    values.extend(state.pool.words());
    if form(kind).is_some_and(|form| form.on == On::PoolAndEntry) {
        values.extend(entry_at(&state.ring, state.pool.head.index));
    }
    Answer { number, values }
}

fn joined<'a>(words: impl Iterator<Item = &'a u64>) -> String {
    words.map(u64::to_string).collect::<Vec<_>>().join(" ")
}
