//! Document 01, 'The calls': the books reckoned afresh, from the opening's amounts and the
//! receipts in turn, with nothing taken from pool or ring.

use crate::wide::product;
use record::{LOCKED_LP, POOL_LENGTH};

/// Where a receipt of the port has its numbers.
const KIND: usize = 1;
pub const DIRECTION: usize = 2;
const CLOCK: usize = 3;
const PAID_IN: [usize; 2] = [4, 5];
pub const PAID_OUT: [usize; 2] = [6, 7];
const LP: usize = 8;
const PROTOCOL_FEE: usize = 10;
const FUND_FEE: usize = 11;
const CREATOR_FEE: usize = 12;
const CREATOR_FEE_TOKEN: usize = 13;
const SHARED: [usize; 2] = [14, 15];
pub const CHARGES: [usize; 2] = [16, 17];

/// The vaults, the six counters, the supply and the newest sums.
#[derive(Clone, Debug, PartialEq, Eq)]
pub struct Books {
    pub vaults: [u128; 2],
    pub protocol: [u128; 2],
    pub fund: [u128; 2],
    pub creator: [u128; 2],
    pub supply: u128,
    pub sums: [u128; 2],
}

pub struct Afresh {
    pub books: Books,
    mark: Option<u64>,
}

impl Afresh {
    pub fn at_opening(amounts: [u64; 2]) -> Afresh {
        let vaults = amounts.map(u128::from);
        let supply = (vaults[0] * vaults[1]).isqrt();
        let zeros = [0, 0];
        let books = Books { vaults, protocol: zeros, fund: zeros, creator: zeros, supply, sums: zeros };
        Afresh { books, mark: None }
    }

    /// An accepted call's receipt; a refused call changes nothing.
    pub fn count(&mut self, receipt: &[u64; 18]) {
        let number = |at: usize| u128::from(receipt[at]);
        let kind = receipt[KIND];
        if kind == 2 || kind == 3 {
            self.count_sums(receipt[CLOCK]);
        }
        let books = &mut self.books;
        for t in 0..2 {
            books.vaults[t] = (books.vaults[t] + number(PAID_IN[t])).wrapping_sub(number(PAID_OUT[t]));
        }
        match kind {
            2 | 3 => {
                let token_in = usize::from(receipt[DIRECTION] != 0);
                books.protocol[token_in] += number(PROTOCOL_FEE);
                books.fund[token_in] += number(FUND_FEE);
                books.creator[usize::from(receipt[CREATOR_FEE_TOKEN] != 0)] += number(CREATOR_FEE);
            }
            4 => books.supply += number(LP),
            5 => books.supply = books.supply.wrapping_sub(number(LP)),
            6 => {
                books.protocol = [0, 1].map(|t| books.protocol[t] + number(SHARED[t]));
                books.creator = [0, 0];
            }
            _ => {}
        }
    }

    /// Prices are those before the swap.
    fn count_sums(&mut self, clock: u64) {
        let seconds = match self.mark {
            Some(mark) if clock > mark => u128::from(clock - mark),
            Some(_) => return,
            None => 0,
        };
        self.mark = Some(clock);
        let Some(nets) = self.books.nets() else {
            return;
        };
        for t in 0..2 {
            let price = (nets[1 - t] << 32).checked_div(nets[t]).unwrap_or_default();
            self.books.sums[t] = self.books.sums[t].wrapping_add(price.wrapping_mul(seconds));
        }
    }
}

impl Books {
    /// What the port's memory holds.
    pub fn held(pool: &[u64; POOL_LENGTH], ring: &[u64; 500]) -> Books {
        let pair = |at: usize| [pool[at], pool[at + 1]].map(u128::from);
        let newest = 5 * pool[19].min(99) as usize;
        let sum = |at: usize| u128::from(ring[newest + at]) << 64 | u128::from(ring[newest + at + 1]);
        Books {
            vaults: pair(0),
            protocol: pair(2),
            fund: pair(4),
            creator: pair(6),
            supply: pool[8].into(),
            sums: [sum(1), sum(3)],
        }
    }

    /// None where the counters are above a vault.
    fn nets(&self) -> Option<[u128; 2]> {
        let net = |t: usize| self.vaults[t].checked_sub(self.protocol[t] + self.fund[t] + self.creator[t]);
        Some([net(0)?, net(1)?])
    }
}

/// The nets and the supply, with the product of the former and the square of the latter, at one point of
/// a list.
#[derive(Clone, Copy)]
pub struct Point {
    nets: [u128; 2],
    supply: u128,
    product: u128,
    squared: u128,
}

impl Point {
    /// None where the counters are above a vault.
    pub fn of(books: &Books) -> Option<Point> {
        let (nets, supply) = (books.nets()?, books.supply);
        Some(Point { nets, supply, product: nets[0] * nets[1], squared: supply * supply })
    }

    /// Document 02 (e): the supply is at least 100.
    pub fn locked_stay(self) -> bool {
        self.supply >= LOCKED_LP.into()
    }

    /// Just the locked LP are left.
    pub fn is_drained(self) -> bool {
        self.supply == LOCKED_LP.into()
    }

    /// Document 02 (e): both nets are above 0.
    pub fn nets_are_above_0(self) -> bool {
        !self.nets.contains(&0)
    }

    /// The supply squared is at most the product of the nets.
    pub fn floor_holds(self) -> bool {
        self.squared <= self.product
    }

    /// The later product times the earlier supply squared is at least the earlier product times
    /// the later supply squared.
    pub fn rises_from(self, earlier: Point) -> bool {
        product(self.product, earlier.squared) >= product(earlier.product, self.squared)
    }
}
