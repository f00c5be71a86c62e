//! Why a call was refused.

use std::error::Error;
use std::fmt;

/// The refusals by the original's names where it has them; a refused call has changed nothing.
#[derive(Clone, Copy, Debug, PartialEq, Eq, Hash)]
#[repr(u64)]
pub enum Refusal {
    /// The pool is closed for this call, or, for a swap, not open yet, whatever the amount.
    NotApproved = 1,
    /// An amount is beyond the caller's limit.
    ExceededSlippage = 2,
    /// A rate, flag, bit, share, a charge's points, a spacing or a length is out of range; or a list is no
    /// [`Register`](crate::Register), or a holder is 0.
    InvalidInput = 3,
    /// An amount of a deposit or withdrawal would be 0, or the supply is. No swap answers it.
    ZeroTradingTokens = 4,
    /// The direction is neither of the two.
    InvalidVault = 5,
    /// An opening with none of a token.
    EmptySupply = 6,
    /// The counters are above a vault, or a vault can't pay.
    InsufficientVault = 7,
    /// A sum, a vault or a holder's balance would pass its width.
    MathOverflow = 8,
    /// The fee model is above 2.
    InvalidFeeModel = 9,
    /// A check that the original has no name for: an amount is 0, of a swap what arrives or is received, or
    /// LP tokens are not the owner's.
    RequireViolated = 10,
    /// The original would panic; also, at a swap, a ring's length above 100, or an index at or past it.
    Panic = 11,
    /// A row of a day sheet can't be read.
    UnreadableRow = 12,
    /// An opening whose LP supply would be below 101.
    InitLpAmountTooLess = 13,
    /// No u64 can be sent that leaves the wanted amount after the charge on it.
    TransferFeeCalculateNotMatch = 14,
    /// A withdrawal that would leave fewer than [`LOCK_LP_AMOUNT`](crate::LOCK_LP_AMOUNT) LP tokens.
    LeftLpAmountTooLess = 15,
    /// A deposit by a new holder, and every entry of the register has a balance.
    RegisterFull = 16,
}

impl Refusal {
    /// All of them, in the order of their numbers.
    pub const ALL: [Refusal; 16] = [
        Refusal::NotApproved,
        Refusal::ExceededSlippage,
        Refusal::InvalidInput,
        Refusal::ZeroTradingTokens,
        Refusal::InvalidVault,
        Refusal::EmptySupply,
        Refusal::InsufficientVault,
        Refusal::MathOverflow,
        Refusal::InvalidFeeModel,
        Refusal::RequireViolated,
        Refusal::Panic,
        Refusal::UnreadableRow,
        Refusal::InitLpAmountTooLess,
        Refusal::TransferFeeCalculateNotMatch,
        Refusal::LeftLpAmountTooLess,
        Refusal::RegisterFull,
    ];

    /// The refusal's number, 1 to 16.
    pub fn number(self) -> u64 {
        self as u64
    }

    /// The refusal of this number, if it is one.
    pub fn from_number(number: u64) -> Option<Refusal> {
        Refusal::ALL.into_iter().find(|refusal| refusal.number() == number)
    }

    /// What to tell a reader.
    pub fn message(self) -> &'static str {
        match self {
            Refusal::NotApproved => "the pool is closed for such calls, or not yet open",
            Refusal::ExceededSlippage => "the price is beyond the caller's limit",
            Refusal::InvalidInput => {
                "a rate, flag, status bit, share, points, spacing or length is out of range, the list is no \
                 register, or the holder is 0"
            }
            Refusal::ZeroTradingTokens => "an amount of tokens would be none",
            Refusal::InvalidVault => "the direction is neither 0 nor 1",
            Refusal::EmptySupply => "an opening without tokens",
            Refusal::InsufficientVault => "the fee counters are above the vault, or it cannot pay",
            Refusal::MathOverflow => "a sum, a vault or a holder's balance would pass its width",
            Refusal::InvalidFeeModel => "there is no such fee model",
            Refusal::RequireViolated => "an amount is 0, or LP tokens are not the owner's",
            Refusal::Panic => {
                "the original would panic (a net of 0, a width passed), or the ring has no entry at its index"
            }
            Refusal::UnreadableRow => "the row cannot be read",
            Refusal::InitLpAmountTooLess => "the opening's supply is below 101",
            Refusal::TransferFeeCalculateNotMatch => "no u64 can be sent that leaves the wanted amount",
            Refusal::LeftLpAmountTooLess => "fewer than the 100 locked LP tokens would be left",
            Refusal::RegisterFull => "a new holder, and every entry of the register has a balance",
        }
    }
}

impl fmt::Display for Refusal {
    fn fmt(&self, f: &mut fmt::Formatter) -> fmt::Result {
        write!(f, "{} (refusal {})", self.message(), self.number())
    }
}

impl Error for Refusal {}
