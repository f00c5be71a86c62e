//! What an accepted call says of itself.

/// Amounts, fees and LP of an accepted call; 0 where one has no meaning.
///
/// The amounts are what reached or left the vaults. Where transfers are charged the caller sent what was
/// paid in and the charge on it, and receives what was paid out less the charge on it.
#[repr(C)]
#[derive(Clone, Copy, Debug, Default, PartialEq, Eq)]
pub struct Receipt {
    /// 0, since the call was accepted.
    pub number: u64,
    /// 1 opening, 2 swap by input, 3 swap by output, 4 deposit, 5 withdrawal, 6 settlement, 7 status.
    pub kind: u64,
    /// Of a swap.
    pub direction: u64,
    /// Of a swap.
    pub clock: u64,
    /// What reached the vault of either token.
    pub paid_in: [u64; 2],
    /// What left the vault of either token.
    pub paid_out: [u64; 2],
    /// LP tokens issued or taken back.
    pub lp: u64,
    /// The trade fee, of which protocol and fund fee are parts; in the token that goes in.
    pub trade_fee: u64,
    /// The protocol's part.
    pub protocol_fee: u64,
    /// The fund's part.
    pub fund_fee: u64,
    /// The creators' fee.
    pub creator_fee: u64,
    /// The token of the creators' fee.
    pub creator_fee_token: u64,
    /// What a settlement moved to the protocol's counters.
    pub shared: [u64; 2],
    /// The charge on the transfer of either token.
    pub charges: [u64; 2],
}
