//! How a call of the original fails, and the number that document 01's table gives to it.

use crate::Cause;
use anchor_lang::error::{Error, Result};
use original::error::ErrorCode;
use std::cell::{Cell, RefCell};
use std::panic::{catch_unwind, set_hook, take_hook, AssertUnwindSafe, Location};
use std::sync::Once;

/// A failure that document 01 has no number for; none was ever seen.
pub const UNKNOWN: u64 = 99;

#[derive(Clone, Debug, PartialEq, Eq)]
pub enum Failure {
    Error(Error),
    /// With the line of the original's text that panicked.
    Panicked(String),
}

impl Failure {
    pub fn number(&self) -> u64 {
        match self {
            Failure::Panicked(_) => 11,
            Failure::Error(Error::Named(case)) => named(*case),
            Failure::Error(Error::NotGreater) => 10,
            Failure::Error(Error::BalancePastU64) => 8,
            Failure::Error(_) => UNKNOWN,
        }
    }

    pub fn cause(self) -> Cause {
        match self {
            Failure::Panicked(place) => Cause::Panic(place),
            Failure::Error(Error::BalancePastU64 | Error::BalanceShort) => Cause::StandIn,
            Failure::Error(_) => Cause::Check,
        }
    }
}

fn named(case: u32) -> u64 {
    const NUMBERS: [(ErrorCode, u64); 9] = [
        (ErrorCode::NotApproved, 1),
        (ErrorCode::ExceededSlippage, 2),
        (ErrorCode::InvalidInput, 3),
        (ErrorCode::ZeroTradingTokens, 4),
        (ErrorCode::InvalidVault, 5),
        (ErrorCode::EmptySupply, 6),
        (ErrorCode::InsufficientVault, 7),
        (ErrorCode::MathOverflow, 8),
        (ErrorCode::InvalidFeeModel, 9),
    ];
    let known = NUMBERS.iter().find(|(name, _)| *name as u32 == case);
    known.map_or(UNKNOWN, |(_, number)| *number)
}

/// Runs a piece of the original; its panics are caught and print nothing.
pub fn caught<T>(piece: impl FnOnce() -> Result<T>) -> std::result::Result<T, Failure> {
    silence_caught_panics();
    CATCHING.set(true);
    let result = catch_unwind(AssertUnwindSafe(piece));
    CATCHING.set(false);
    match result {
        Ok(result) => result.map_err(Failure::Error),
        Err(_) => Err(Failure::Panicked(PLACE.take())),
    }
}

thread_local! {
    static CATCHING: Cell<bool> = const { Cell::new(false) };
    static PLACE: RefCell<String> = const { RefCell::new(String::new()) };
}

fn silence_caught_panics() {
    static ONCE: Once = Once::new();
    ONCE.call_once(|| {
        let usual = take_hook();
        set_hook(Box::new(move |panic| {
            if CATCHING.get() {
                PLACE.replace(panic.location().map_or_else(String::new, place));
            } else {
                usual(panic);
            }
        }));
    });
}

fn place(location: &Location) -> String {
    let file = location.file().rsplit('/').next().unwrap_or_default();
    format!("{file}:{}", location.line())
}
