//! What a failed call returns.

/// Says which check failed, so that the runner can give the number of document 01's table.
#[derive(Clone, Copy, Debug, PartialEq, Eq)]
pub enum Error {
    /// A case of the program's own enum, in the order of that enum.
    Named(u32),
    /// `require_gt!` or `require_gte!` without a named error.
    NotGreater,
    /// `require_eq!` without a named error.
    NotEqual,
    /// A token account would hold more than 64 bits.
    BalancePastU64,
    /// A token account holds less than it is to pay.
    BalanceShort,
    /// An account's bytes would have to be read.
    NoBytes,
}

pub type Result<T> = std::result::Result<T, Error>;
