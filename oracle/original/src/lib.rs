//! The original's files, compiled as they are. Only the tree around them is ours, because
//! its own was not published, and `utils/token.rs`, which rests on crates that can't be had.

// The original's warnings are not ours to mend.
#![allow(warnings)]

include!(concat!(env!("OUT_DIR"), "/original.rs"));

pub const AUTH_SEED: &str = "";

/// No account is owned by the program here, so that no account's bytes are read.
pub fn id() -> anchor_lang::accounts::Pubkey {
    anchor_lang::accounts::Pubkey(u8::MAX)
}
