//! The numbers of document 01's table, by the names that it gives them, and those that join it by
//! document 02, by the original's or, where it has none, in its manner.

pub const NOT_APPROVED: u64 = 1;
pub const EXCEEDED_SLIPPAGE: u64 = 2;
pub const INVALID_INPUT: u64 = 3;
pub const ZERO_TRADING_TOKENS: u64 = 4;
pub const INVALID_VAULT: u64 = 5;
pub const EMPTY_SUPPLY: u64 = 6;
pub const INSUFFICIENT_VAULT: u64 = 7;
pub const MATH_OVERFLOW: u64 = 8;
pub const INVALID_FEE_MODEL: u64 = 9;
pub const UNNAMED_REQUIRE: u64 = 10;
pub const PANIC: u64 = 11;
pub const INIT_LP_AMOUNT_TOO_LESS: u64 = 13;
pub const TRANSFER_FEE_CALCULATE_NOT_MATCH: u64 = 14;
pub const LEFT_LP_AMOUNT_TOO_LESS: u64 = 15;
pub const REGISTER_FULL: u64 = 16;

/// The next step of a call: refused with this number, or on to the one after.
pub fn refuse_if(fails: bool, number: u64) -> Result<(), u64> {
    if fails {
        Err(number)
    } else {
        Ok(())
    }
}
