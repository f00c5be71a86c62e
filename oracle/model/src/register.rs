//! Document 02 (g): the register of holders, the three calls that take one, and the reading of a balance.
//! A list is two numbers an entry, its number and its balance.

use crate::calls::{self, liquidity::LOCK_LP_AMOUNT};
use crate::refusal::{refuse_if, INVALID_INPUT, MATH_OVERFLOW, REGISTER_FULL};
use crate::whole::whole;
use crate::{refused, After};
use record::{call_answer, Answer, Call, Case, Receipt, State, WITH_REGISTER};

const MOST_ENTRIES: usize = 256;

/// What a call with a register gives, and the list after it.
pub struct Registered {
    pub after: After,
    pub holders: Vec<u64>,
}

/// A refused call leaves the list as it was.
pub fn run(state: &State, case: &Case) -> Registered {
    match accepted(state, case) {
        Ok((state, receipt, register)) => {
            Registered { after: After { number: 0, receipt, state }, holders: register.numbers() }
        }
        Err(number) => {
            let (_, holders) = lent(case);
            Registered { after: refused(number, state, case.kind == 41), holders: holders.to_vec() }
        }
    }
}

/// The case of the call without a register, or 3: a withdrawal's owner has the balance of the holder's
/// entry.
pub fn without(case: &Case) -> Result<Case, u64> {
    let (holder, list) = lent(case);
    let owned = Register::read(list, holder)?.balance(holder);
    let kind = case.kind - WITH_REGISTER;
    let mut columns = case.columns.clone();
    columns.truncate(case.columns.len() - list.len() - 1);
    if kind == 5 {
        let behind_lp = case.form().columns_before() + 1;
        columns.insert(behind_lp, owned);
    }
    Ok(Case { kind, columns })
}

/// What the holder's entry has, 0 where he has none; 3 where the list is no register or the holder is 0.
pub fn balance(list: &[u64], holder: u64) -> Result<u64, u64> {
    Register::read(list, holder).map(|register| register.balance(holder))
}

pub(crate) fn answer(case: &Case) -> Answer {
    if case.kind == WITH_REGISTER {
        let (holder, list) = lent(case);
        return match balance(list, holder) {
            Ok(balance) => Answer { number: 0, values: vec![balance] },
            Err(number) => Answer::refused(number, 1),
        };
    }
    let Registered { after, holders } = run(&case.state(), case);
    let mut answer = call_answer(case.kind, after.number, &after.receipt, &after.state);
    answer.values.extend(holders);
    answer
}

fn lent(case: &Case) -> (u64, &[u64]) {
    case.register().expect("the case takes a register")
}

/// The register's first test, the call's own, then those of the entry.
fn accepted(state: &State, case: &Case) -> Result<(State, Receipt, Register), u64> {
    let (holder, list) = lent(case);
    let mut register = Register::read(list, holder)?;
    let call = without(case)?.call().expect("without a register it is a call");
    let (after, receipt) = calls::accepted(state, &call)?;
    match call {
        Call::Opening(_) => register.open(holder, after.pool.supply),
        Call::Deposit { lp, .. } => register.credit(holder, lp)?,
        Call::Withdrawal { lp, .. } => register.debit(holder, lp),
        _ => unreachable!("no other call takes a register"),
    }
    Ok((after, receipt, register))
}

#[derive(Clone, Copy)]
struct Entry {
    number: u64,
    balance: u64,
}

impl Entry {
    const FREE: Entry = Entry { number: 0, balance: 0 };

    fn has_balance(&self) -> bool {
        self.balance > 0
    }
}

struct Register(Vec<Entry>);

impl Register {
    /// 3 for a list of no or over 256 entries, one with a number 0 or a number twice among its entries with
    /// a balance, or a holder 0. An odd count of numbers is no list of entries.
    fn read(list: &[u64], holder: u64) -> Result<Register, u64> {
        let (pairs, rest) = list.as_chunks();
        let entries: Vec<Entry> = pairs.iter().map(|&[number, balance]| Entry { number, balance }).collect();
        refuse_if(!rest.is_empty() || entries.is_empty() || entries.len() > MOST_ENTRIES, INVALID_INPUT)?;
        let with_balance = entries.iter().filter(|entry| entry.has_balance());
        let mut numbers: Vec<u64> = with_balance.map(|entry| entry.number).collect();
        numbers.sort_unstable();
        refuse_if(numbers.first() == Some(&0), INVALID_INPUT)?;
        refuse_if(numbers.windows(2).any(|pair| pair[0] == pair[1]), INVALID_INPUT)?;
        refuse_if(holder == 0, INVALID_INPUT)?;
        Ok(Register(entries))
    }

    fn numbers(&self) -> Vec<u64> {
        self.0.iter().flat_map(|entry| [entry.number, entry.balance]).collect()
    }

    /// The holder's entry: the one of his number with a balance.
    fn entry_of(&mut self, holder: u64) -> Option<&mut Entry> {
        self.0.iter_mut().find(|entry| entry.has_balance() && entry.number == holder)
    }

    fn balance(mut self, holder: u64) -> u64 {
        self.entry_of(holder).map_or(0, |entry| entry.balance)
    }

    /// The list is set to zeros and the opener entered first, with the supply less the locked LP.
    fn open(&mut self, opener: u64, supply: u64) {
        self.0.fill(Entry::FREE);
        self.0[0] = Entry { number: opener, balance: supply - LOCK_LP_AMOUNT };
    }

    /// A new holder, who is one without a balance, takes the first entry of balance 0.
    fn credit(&mut self, holder: u64, lp: u64) -> Result<(), u64> {
        if let Some(entry) = self.entry_of(holder) {
            entry.balance = (whole(entry.balance) + whole(lp)).as_u64().ok_or(MATH_OVERFLOW)?;
            return Ok(());
        }
        let free = self.0.iter_mut().find(|entry| !entry.has_balance()).ok_or(REGISTER_FULL)?;
        *free = Entry { number: holder, balance: lp };
        Ok(())
    }

    /// An entry whose balance falls to 0 keeps its number.
    fn debit(&mut self, holder: u64, lp: u64) {
        let entry = self.entry_of(holder).expect("LP above 0 and not above the owner's has an entry");
        entry.balance -= lp;
    }
}
