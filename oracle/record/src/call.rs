//! The seven calls and their receipt.

use crate::pool::{Charge, Grid, Rates};

/// The amounts are those that arrived.
#[derive(Clone, Copy, Debug, PartialEq, Eq)]
pub struct Opening {
    pub amounts: [u64; 2],
    pub fee_model: u64,
    pub enabled: u64,
    pub open_time: u64,
    pub rates: Rates,
    pub charges: [Charge; 2],
    pub grid: Grid,
}

pub const OPENING_LENGTH: usize = 16;

/// By input the amount is what is sent and the limit the least that is received; by output the amount
/// is what is received and the limit the most that is sent.
#[derive(Clone, Copy, Debug, PartialEq, Eq)]
pub struct Swap {
    pub direction: u64,
    pub amount: u64,
    pub limit: u64,
    pub clock: u64,
}

#[derive(Clone, Copy, Debug, PartialEq, Eq)]
pub enum Call {
    Opening(Opening),
    SwapByInput(Swap),
    SwapByOutput(Swap),
    Deposit { lp: u64, maximums: [u64; 2] },
    Withdrawal { lp: u64, owned: u64, minimums: [u64; 2] },
    Settlement { share: u64 },
    Status { bit: u64, flag: u64 },
}

impl Opening {
    /// None where there are not sixteen.
    fn from_words(words: &[u64]) -> Option<Opening> {
        let [a0, a1, fee_model, enabled, open_time, ref rest @ ..] = *words else {
            return None;
        };
        let [trade, protocol, fund, creator, share, ref rest @ ..] = *rest else {
            return None;
        };
        let [points_0, maximum_0, points_1, maximum_1, ref rest @ ..] = *rest else {
            return None;
        };
        Some(Opening {
            amounts: [a0, a1],
            fee_model,
            enabled,
            open_time,
            rates: Rates { trade, protocol, fund, creator, share },
            charges: Charge::from_words([points_0, maximum_0, points_1, maximum_1]),
            grid: Grid::from_words(rest.try_into().ok()?),
        })
    }

    pub fn words(&self) -> [u64; OPENING_LENGTH] {
        let Opening { amounts: [a0, a1], fee_model, enabled, open_time, rates, charges, grid } = *self;
        let Rates { trade, protocol, fund, creator, share } = rates;
        let [points_0, maximum_0, points_1, maximum_1] = Charge::words(charges);
        [
            a0,
            a1,
            fee_model,
            enabled,
            open_time,
            trade,
            protocol,
            fund,
            creator,
            share,
            points_0,
            maximum_0,
            points_1,
            maximum_1,
            grid.spacing,
            grid.length,
        ]
    }
}

impl Call {
    /// None where the kind is no call or has another count of arguments.
    pub fn from_words(kind: u64, words: &[u64]) -> Option<Call> {
        Some(match (kind, words) {
            (1, words) => Call::Opening(Opening::from_words(words)?),
            (2, &[direction, amount, limit, clock]) => {
                Call::SwapByInput(Swap { direction, amount, limit, clock })
            }
            (3, &[direction, amount, limit, clock]) => {
                Call::SwapByOutput(Swap { direction, amount, limit, clock })
            }
            (4, &[lp, m0, m1]) => Call::Deposit { lp, maximums: [m0, m1] },
            (5, &[lp, owned, m0, m1]) => Call::Withdrawal { lp, owned, minimums: [m0, m1] },
            (6, &[share]) => Call::Settlement { share },
            (7, &[bit, flag]) => Call::Status { bit, flag },
            _ => return None,
        })
    }

    /// As the day sheet numbers its rows.
    pub fn kind(&self) -> u64 {
        match self {
            Call::Opening(_) => 1,
            Call::SwapByInput(_) => 2,
            Call::SwapByOutput(_) => 3,
            Call::Deposit { .. } => 4,
            Call::Withdrawal { .. } => 5,
            Call::Settlement { .. } => 6,
            Call::Status { .. } => 7,
        }
    }
}

/// What an accepted call says of itself; 0 where a field has no meaning. The amounts are what reached
/// or left the vaults: what was sent is paid in plus the charge, what is received is paid out less it.
#[derive(Clone, Copy, Debug, Default, PartialEq, Eq)]
pub struct Receipt {
    pub kind: u64,
    pub direction: u64,
    pub clock: u64,
    pub paid_in: [u64; 2],
    pub paid_out: [u64; 2],
    pub lp: u64,
    pub trade_fee: u64,
    pub protocol_fee: u64,
    pub fund_fee: u64,
    pub creator_fee: u64,
    pub creator_fee_token: u64,
    pub shared: [u64; 2],
    /// On the transfer of either token.
    pub charges: [u64; 2],
}

pub const RECEIPT_LENGTH: usize = 17;

pub const RECEIPT_COLUMNS: [&str; RECEIPT_LENGTH] = [
    "kind",
    "direction",
    "clock",
    "in 0",
    "in 1",
    "out 0",
    "out 1",
    "lp",
    "trade fee",
    "protocol fee",
    "fund fee",
    "creator fee",
    "creator fee's token",
    "shared 0",
    "shared 1",
    "charge 0",
    "charge 1",
];

impl Receipt {
    /// What was sent of a token that was paid in.
    pub fn sent(&self, token: usize) -> u64 {
        self.paid_in[token] + self.charges[token]
    }

    /// What is received of a token that was paid out.
    pub fn received(&self, token: usize) -> u64 {
        self.paid_out[token] - self.charges[token]
    }

    pub fn words(&self) -> [u64; RECEIPT_LENGTH] {
        [
            self.kind,
            self.direction,
            self.clock,
            self.paid_in[0],
            self.paid_in[1],
            self.paid_out[0],
            self.paid_out[1],
            self.lp,
            self.trade_fee,
            self.protocol_fee,
            self.fund_fee,
            self.creator_fee,
            self.creator_fee_token,
            self.shared[0],
            self.shared[1],
            self.charges[0],
            self.charges[1],
        ]
    }
}
