//! Stands in for the crate `anchor_spl`: only what the original's files name.

pub mod token {
    pub struct Token;
}

pub mod token_interface {
    use anchor_lang::accounts::Pubkey;

    pub struct Token2022;
    pub struct TokenInterface;

    /// A token account as it was when the call began.
    pub struct TokenAccount {
        pub amount: u64,
        pub mint: Pubkey,
    }

    pub struct Mint {
        pub decimals: u8,
    }
}

/// The memo program is only named.
pub mod memo {}
