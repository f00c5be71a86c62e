//! A constant-product token pool: its swaps, deposits, withdrawals, settlements, its ring of prices,
//! the [register](Register) of its holders and its [day sheet](DaySheet). The calls are those of
//! `libcp_swap.a`, whose every function is proved to meet its contract; this crate gives them names and
//! types and adds no rule of its own.
//!
//! A call either is accepted, and gives a [`Receipt`], or it is refused with a [`Refusal`] and has
//! changed nothing. No number makes a call panic.
//!
//! ```
//! use cp_swap::{Direction, Opening, Pool, Rates, Refusal, Ring};
//!
//! let mut pool = Pool::default();
//! let mut ring = Ring::default();
//! let rates = Rates { trade: 2_500, protocol: 120_000, fund: 40_000, ..Rates::default() };
//! pool.open(&mut ring, &Opening { amounts: [1_000_000, 4_000_000], rates, ..Opening::default() })?;
//!
//! let receipt = pool.swap_base_input(&mut ring, Direction::ZeroForOne, 10_000, 1, 100)?;
//! assert_eq!(receipt.paid_out, [0, 39_505]);
//! assert_eq!(pool.nets()?, [1_009_996, 3_960_495]);
//!
//! let before = pool;
//! let refused = pool.swap_base_input(&mut ring, Direction::ZeroForOne, 10_000, 40_000, 101);
//! assert_eq!(refused, Err(Refusal::ExceededSlippage));
//! assert_eq!(pool, before);
//! # Ok::<(), Refusal>(())
//! ```

#![deny(unsafe_code)]

mod calls;
mod day_sheet;
mod receipt;
mod record;
mod refusal;
mod register;
mod ring;

pub mod plain;

pub use calls::{Answer, Direction, FeeModel, Opening, StatusBit, LOCK_LP_AMOUNT};
pub use day_sheet::{DaySheet, Progress, ROW_LENGTH};
pub use receipt::Receipt;
pub use record::{Charge, Grid, Pool, Rates, RingHead};
pub use refusal::Refusal;
pub use register::{Holder, Register, MOST_HOLDERS};
pub use ring::{Entry, Ring, Sum, RING_ENTRIES};
