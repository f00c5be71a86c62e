//! The pool's record.

/// Rates in millionths.
#[repr(C)]
#[derive(Clone, Copy, Debug, Default, PartialEq, Eq)]
pub struct Rates {
    /// The trade fee's part of an input.
    pub trade: u64,
    /// The protocol's part of the trade fee.
    pub protocol: u64,
    /// The fund's part of the trade fee.
    pub fund: u64,
    /// The creators' fee, where the pool charges it.
    pub creator: u64,
    /// The protocol's part of the creators' fees at a settlement.
    pub share: u64,
}

/// The ring of prices without its entries.
#[repr(C)]
#[derive(Clone, Copy, Debug, Default, PartialEq, Eq)]
pub struct RingHead {
    /// 1 once a swap has used the ring, 0 before.
    pub used: u64,
    /// The newest entry, below the [`Grid::length`].
    pub index: u64,
    /// The clock up to which the newest sums count.
    pub mark: u64,
}

/// What a transfer of a token is charged: `points` per 10,000 of the amount, rounded up, at most `maximum`
/// and at most the amount. Points 0 or a maximum of 0 charge nothing.
#[repr(C)]
#[derive(Clone, Copy, Debug, Default, PartialEq, Eq)]
pub struct Charge {
    /// Per 10,000; an opening takes at most 9,999.
    pub points: u64,
    /// The most that a transfer is charged.
    pub maximum: u64,
}

/// How far apart a ring's entries are, and how many of them a pool uses. An opening refuses what is out of
/// range, zeros among it; the usual grid is [`Grid::DEFAULT`].
#[repr(C)]
#[derive(Clone, Copy, Debug, PartialEq, Eq)]
pub struct Grid {
    /// Seconds, 1 to 3,600. The newest entry is overwritten, and keeps its clock, until it is so old.
    pub spacing: u64,
    /// Entries, 2 to 100: the first so many of a [`Ring`](crate::Ring). The first follows the last.
    pub length: u64,
}

impl Grid {
    /// The original's: an entry each 15 seconds, and 100 of them. A day sheet's pools have it.
    pub const DEFAULT: Grid = Grid { spacing: 15, length: 100 };
}

/// All that a pool is, but for its ring's entries: 27 numbers, plain to store and to compare.
///
/// A pool begins with [`Pool::open`] on any record, a default one as well. Records with any numbers
/// may be built by hand: a call on them is accepted or refused by the same rules.
#[repr(C)]
#[derive(Clone, Copy, Debug, PartialEq, Eq)]
pub struct Pool {
    /// The whole balance of either token, the counters below included.
    pub vaults: [u64; 2],
    /// The protocol's fees in the vaults.
    pub protocol_fees: [u64; 2],
    /// The fund's fees in the vaults.
    pub fund_fees: [u64; 2],
    /// The creators' fees in the vaults.
    pub creator_fees: [u64; 2],
    /// LP tokens.
    pub supply: u64,
    /// A set bit closes: 0 deposits, 1 withdrawals, 2 swaps.
    pub status: u64,
    /// No swap before this clock.
    pub open_time: u64,
    /// As [`FeeModel`](crate::FeeModel) numbers it.
    pub fee_model: u64,
    /// 1 where creators' fees are charged, else 0; any other number makes every call refuse but an opening.
    pub enabled: u64,
    /// The rates that the pool was opened with.
    pub rates: Rates,
    /// Where its ring stands.
    pub ring: RingHead,
    /// What transfers of either token are charged.
    pub charges: [Charge; 2],
    /// The grid that the pool was opened with. In a record built by hand, a length of 0 or above 100, or not
    /// above the ring's index, makes a swap refuse where it comes to the ring; a length of 1 keeps to one
    /// entry, and a spacing of 0 is as 1.
    pub grid: Grid,
}

impl Default for Pool {
    /// Zeros, as before an opening.
    fn default() -> Pool {
        Pool {
            vaults: [0; 2],
            protocol_fees: [0; 2],
            fund_fees: [0; 2],
            creator_fees: [0; 2],
            supply: 0,
            status: 0,
            open_time: 0,
            fee_model: 0,
            enabled: 0,
            rates: Rates::default(),
            ring: RingHead::default(),
            charges: [Charge::default(); 2],
            grid: Grid { spacing: 0, length: 0 },
        }
    }
}

impl Pool {
    /// The record as the library has it.
    pub fn words(&self) -> [u64; 27] {
        let mut copy = *self;
        *copy.words_mut()
    }

    /// A record from its numbers, whatever they are.
    pub fn from_words(words: [u64; 27]) -> Pool {
        let mut pool = Pool::default();
        *pool.words_mut() = words;
        pool
    }
}
