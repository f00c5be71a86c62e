//! Stands in for the crate `anchor_lang`: only what the original's files name.

extern crate self as anchor_lang;

pub mod accounts;
mod checks;
pub mod clock;
pub mod error;
pub mod events;

pub use accounts::AccountDeserialize;
pub use anchor_macros::ErrorCase;
pub use error::Result;

pub mod solana_program {
    pub use crate::clock;
}

pub mod prelude {
    pub use crate::accounts::*;
    pub use crate::clock::Clock;
    pub use crate::error::{Error, Result};
    pub use crate::{emit, err, require_eq, require_gt, require_gte};
    pub use anchor_macros::{
        account, error_code, event, zero_copy, Accounts, AnchorDeserialize, AnchorSerialize,
    };
}
