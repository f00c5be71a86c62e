//! The register of a pool's holders.

use crate::calls::answered;
use crate::plain;
use crate::Refusal;

/// The most entries that a register has.
pub const MOST_HOLDERS: usize = 256;

/// An entry of a register.
#[repr(C)]
#[derive(Clone, Copy, Debug, Default, PartialEq, Eq)]
pub struct Holder {
    /// The holder, from 1.
    pub number: u64,
    /// His LP tokens. An entry of balance 0 is free for anyone, whichever number stands in it.
    pub balance: u64,
}

/// Who holds how many LP tokens: 1 to [`MOST_HOLDERS`] entries. Among those with a balance no number is 0 or
/// stands twice.
///
/// It is lent to [`Pool::open_by`](crate::Pool::open_by), and then to every
/// [`deposit_by`](crate::Pool::deposit_by) and [`withdraw_by`](crate::Pool::withdraw_by) of that pool. As
/// long as these are the pool's only deposits and withdrawals, the balances and
/// [`LOCK_LP_AMOUNT`](crate::LOCK_LP_AMOUNT) together are the supply. A refused call leaves it as it was.
///
/// ```
/// use cp_swap::{Holder, Opening, Pool, Refusal, Register, Ring};
///
/// let (mut pool, mut ring, mut register) = (Pool::default(), Ring::default(), Register::new(3)?);
/// let opening = Opening { amounts: [1_000_000, 4_000_000], ..Opening::default() };
/// pool.open_by(&mut ring, &mut register, 7, &opening)?;
/// pool.deposit_by(&mut ring, &mut register, 8, 1_000, [u64::MAX; 2])?;
/// assert_eq!(register.entries()[1], Holder { number: 8, balance: 1_000 });
/// assert_eq!(register.balance(7)?, 1_999_900);
///
/// let stored = register.entries().to_vec();
/// assert_eq!(Register::from_entries(stored)?, register);
/// # Ok::<(), Refusal>(())
/// ```
#[derive(Clone, Debug, PartialEq, Eq)]
pub struct Register {
    entries: Vec<Holder>,
}

impl Register {
    /// So many free entries, 1 to [`MOST_HOLDERS`]; any other number is refused.
    pub fn new(entries: usize) -> Result<Register, Refusal> {
        // One too many is refused as well as any greater number.
        Register::from_entries(vec![Holder::default(); entries.min(MOST_HOLDERS + 1)])
    }

    /// A register from its entries, as [`entries`](Register::entries) gave them; a list that is none is
    /// refused.
    pub fn from_entries(entries: impl Into<Vec<Holder>>) -> Result<Register, Refusal> {
        let register = Register { entries: entries.into() };
        // Of a holder from 1 the balance is refused only where the list is no register.
        register.balance(1).map(|_| register)
    }

    /// The entries in their order, free ones among them.
    pub fn entries(&self) -> &[Holder] {
        &self.entries
    }

    /// A holder's LP tokens, 0 where he has no entry; a holder 0 is refused.
    pub fn balance(&self, holder: u64) -> Result<u64, Refusal> {
        let mut balance = 0;
        let number = plain::balance(plain::holder_words(&self.entries), holder, &mut balance);
        answered(number, balance)
    }

    pub(crate) fn words_mut(&mut self) -> &mut [u64] {
        plain::holder_words_mut(&mut self.entries)
    }
}
