//! The pool's record, in the order in which every line gives it.

use crate::ring::{Ring, ENTRY_LENGTH, RING_ENTRIES};

#[derive(Clone, Copy, Debug, Default, PartialEq, Eq)]
pub struct Rates {
    pub trade: u64,
    pub protocol: u64,
    pub fund: u64,
    pub creator: u64,
    pub share: u64,
}

impl Rates {
    /// Whether document 01's limits refuse every swap at these rates.
    pub fn past_limits(&self) -> bool {
        let sum = |left, right| u128::from(left) + u128::from(right);
        sum(self.trade, self.creator) > 999_999 || sum(self.protocol, self.fund) > 1_000_000
    }
}

/// What a token's transfers are charged: points per 10,000, up to a maximum.
#[derive(Clone, Copy, Debug, Default, PartialEq, Eq)]
pub struct Charge {
    pub points: u64,
    pub maximum: u64,
}

impl Charge {
    /// Both tokens' charges in the order of every line.
    pub fn words([charge_0, charge_1]: [Charge; 2]) -> [u64; 4] {
        [charge_0.points, charge_0.maximum, charge_1.points, charge_1.maximum]
    }

    pub fn from_words([points_0, maximum_0, points_1, maximum_1]: [u64; 4]) -> [Charge; 2] {
        [Charge { points: points_0, maximum: maximum_0 }, Charge { points: points_1, maximum: maximum_1 }]
    }
}

/// How the price ring is laid out: seconds from one entry to the next, and how many entries are used.
#[derive(Clone, Copy, Debug, Default, PartialEq, Eq)]
pub struct Grid {
    pub spacing: u64,
    pub length: u64,
}

impl Grid {
    /// The day sheet's, and the only one that the original has.
    pub const DEFAULT: Grid = Grid { spacing: 15, length: 100 };

    /// In the order of every line.
    pub const fn words(self) -> [u64; 2] {
        [self.spacing, self.length]
    }

    pub fn from_words([spacing, length]: [u64; 2]) -> Grid {
        Grid { spacing, length }
    }

    /// How many of the ring's numbers stand before the length: at most those of all hundred entries.
    pub fn used_words(self) -> usize {
        let entries = usize::try_from(self.length).unwrap_or(RING_ENTRIES);
        ENTRY_LENGTH * entries.min(RING_ENTRIES)
    }
}

/// The price ring without its entries.
#[derive(Clone, Copy, Debug, Default, PartialEq, Eq)]
pub struct RingHead {
    pub used: bool,
    pub index: u64,
    pub mark: u64,
}

#[derive(Clone, Copy, Debug, Default, PartialEq, Eq)]
pub struct Pool {
    pub vaults: [u64; 2],
    pub protocol: [u64; 2],
    pub fund: [u64; 2],
    pub creator: [u64; 2],
    pub supply: u64,
    pub status: u64,
    pub open_time: u64,
    pub fee_model: u64,
    pub enabled: bool,
    pub rates: Rates,
    pub head: RingHead,
    pub charges: [Charge; 2],
    pub grid: Grid,
}

#[derive(Clone, Debug, PartialEq, Eq)]
pub struct State {
    pub pool: Pool,
    pub ring: Ring,
}

pub const POOL_LENGTH: usize = 27;

pub const POOL_COLUMNS: [&str; POOL_LENGTH] = [
    "vault 0",
    "vault 1",
    "protocol 0",
    "protocol 1",
    "fund 0",
    "fund 1",
    "creator 0",
    "creator 1",
    "supply",
    "status",
    "open time",
    "fee model",
    "enabled",
    "trade rate",
    "protocol rate",
    "fund rate",
    "creator rate",
    "share rate",
    "ring used",
    "ring index",
    "ring mark",
    "points 0",
    "maximum 0",
    "points 1",
    "maximum 1",
    "spacing",
    "length",
];

impl Pool {
    pub fn words(&self) -> [u64; POOL_LENGTH] {
        let [points_0, maximum_0, points_1, maximum_1] = Charge::words(self.charges);
        let Pool { vaults, protocol, fund, creator, rates, head, .. } = self;
        [
            vaults[0],
            vaults[1],
            protocol[0],
            protocol[1],
            fund[0],
            fund[1],
            creator[0],
            creator[1],
            self.supply,
            self.status,
            self.open_time,
            self.fee_model,
            self.enabled.into(),
            rates.trade,
            rates.protocol,
            rates.fund,
            rates.creator,
            rates.share,
            head.used.into(),
            head.index,
            head.mark,
            points_0,
            maximum_0,
            points_1,
            maximum_1,
            self.grid.spacing,
            self.grid.length,
        ]
    }

    /// Whether transfers of either token have points; a maximum alone charges nothing.
    pub fn bears_charges(&self) -> bool {
        self.charges.iter().any(|charge| charge.points != 0)
    }

    /// The vault less its counters; none where they are above it.
    pub fn net(&self, token: usize) -> Option<u64> {
        let counters = [self.protocol[token], self.fund[token], self.creator[token]];
        counters.into_iter().try_fold(self.vaults[token], u64::checked_sub)
    }

    /// Whether the pool is closed to what this bit stands for: 0 deposits, 1 withdrawals, 2 swaps.
    pub fn status_bit(&self, bit: u64) -> bool {
        self.status >> bit & 1 == 1
    }

    /// None where a yes or no is neither 1 nor 0, or words are missing.
    pub fn from_words(words: &[u64]) -> Option<Pool> {
        let [v0, v1, p0, p1, f0, f1, c0, c1, ref rest @ ..] = *words else {
            return None;
        };
        let [supply, status, open_time, fee_model, enabled, ref rest @ ..] = *rest else {
            return None;
        };
        let [trade, protocol, fund, creator, share, used, index, mark, ref rest @ ..] = *rest else {
            return None;
        };
        let [points_0, maximum_0, points_1, maximum_1, ref rest @ ..] = *rest else {
            return None;
        };
        Some(Pool {
            vaults: [v0, v1],
            protocol: [p0, p1],
            fund: [f0, f1],
            creator: [c0, c1],
            supply,
            status,
            open_time,
            fee_model,
            enabled: yes_or_no(enabled)?,
            rates: Rates { trade, protocol, fund, creator, share },
            head: RingHead { used: yes_or_no(used)?, index, mark },
            charges: Charge::from_words([points_0, maximum_0, points_1, maximum_1]),
            grid: Grid::from_words(rest.try_into().ok()?),
        })
    }
}

fn yes_or_no(word: u64) -> Option<bool> {
    match word {
        0 => Some(false),
        1 => Some(true),
        _ => None,
    }
}
