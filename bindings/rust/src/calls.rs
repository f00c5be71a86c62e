//! The calls on a pool.

use crate::plain;
use crate::{Charge, Grid, Pool, Rates, Receipt, Refusal, Register, Ring};

/// Which token goes in.
#[derive(Clone, Copy, Debug, PartialEq, Eq)]
#[repr(u64)]
pub enum Direction {
    /// Token 0 in, token 1 out.
    ZeroForOne = 0,
    /// Token 1 in, token 0 out.
    OneForZero = 1,
}

/// Which token the creators' fee is taken of.
#[derive(Clone, Copy, Debug, Default, PartialEq, Eq)]
#[repr(u64)]
pub enum FeeModel {
    /// Always the one that goes in.
    #[default]
    Input = 0,
    /// Token 0, whichever goes in.
    Token0 = 1,
    /// Token 1, whichever goes in.
    Token1 = 2,
}

/// What a status bit closes.
#[derive(Clone, Copy, Debug, PartialEq, Eq)]
#[repr(u64)]
pub enum StatusBit {
    /// Deposits.
    Deposits = 0,
    /// Withdrawals.
    Withdrawals = 1,
    /// Swaps.
    Swaps = 2,
}

/// So many LP tokens are locked at the opening, and no withdrawal touches them. The supply counts them.
pub const LOCK_LP_AMOUNT: u64 = 100;

/// What a pool is opened with. Its LP supply is the whole root of the product of the amounts, of which the
/// opener gets all but [`LOCK_LP_AMOUNT`].
#[derive(Clone, Copy, Debug, PartialEq, Eq)]
pub struct Opening {
    /// Of either token, as they arrived: an opening bears no charge.
    pub amounts: [u64; 2],
    /// Where creators' fees are taken.
    pub fee_model: FeeModel,
    /// Whether creators' fees are charged.
    pub enabled: bool,
    /// No swap before this clock.
    pub open_time: u64,
    /// In millionths.
    pub rates: Rates,
    /// What transfers of either token are charged.
    pub charges: [Charge; 2],
    /// How far apart its ring's entries are, and how many it uses.
    pub grid: Grid,
}

impl Default for Opening {
    /// Zeros, and [`Grid::DEFAULT`].
    fn default() -> Opening {
        Opening {
            amounts: [0; 2],
            fee_model: FeeModel::default(),
            enabled: false,
            open_time: 0,
            rates: Rates::default(),
            charges: [Charge::default(); 2],
            grid: Grid::DEFAULT,
        }
    }
}

impl Opening {
    /// The library's sixteen numbers.
    fn words(&self) -> plain::OpeningWords {
        let Opening { amounts, fee_model, enabled, open_time, rates, charges, grid } = *self;
        let Rates { trade, protocol, fund, creator, share } = rates;
        let [charge_0, charge_1] = charges;
        [
            amounts[0],
            amounts[1],
            fee_model as u64,
            enabled.into(),
            open_time,
            trade,
            protocol,
            fund,
            creator,
            share,
            charge_0.points,
            charge_0.maximum,
            charge_1.points,
            charge_1.maximum,
            grid.spacing,
            grid.length,
        ]
    }
}

/// Accepted with a receipt, or refused with nothing changed.
pub type Answer = Result<Receipt, Refusal>;

impl Pool {
    /// A new pool and ring in place of these.
    pub fn open(&mut self, ring: &mut Ring, opening: &Opening) -> Answer {
        let opening = opening.words();
        self.call(ring, |pool, ring, receipt| plain::open(pool, ring, receipt, &opening))
    }

    /// Sends `amount` in, and out what the curve gives for what arrives; at least `minimum` is received.
    pub fn swap_base_input(
        &mut self,
        ring: &mut Ring,
        direction: Direction,
        amount: u64,
        minimum: u64,
        clock: u64,
    ) -> Answer {
        self.call(ring, |pool, ring, receipt| {
            plain::base_input(pool, ring, receipt, direction as u64, amount, minimum, clock)
        })
    }

    /// Pays out so much that `amount` is received, and takes in what that costs; at most `maximum` is sent.
    pub fn swap_base_output(
        &mut self,
        ring: &mut Ring,
        direction: Direction,
        amount: u64,
        maximum: u64,
        clock: u64,
    ) -> Answer {
        self.call(ring, |pool, ring, receipt| {
            plain::base_output(pool, ring, receipt, direction as u64, amount, maximum, clock)
        })
    }

    /// Issues `lp` LP tokens; of both tokens at most these amounts are sent.
    pub fn deposit(&mut self, ring: &mut Ring, lp: u64, maximums: [u64; 2]) -> Answer {
        self.call(ring, |pool, ring, receipt| plain::deposit(pool, ring, receipt, lp, maximums))
    }

    /// Takes `lp` LP tokens back, of an owner who holds `owned` and receives at least these amounts;
    /// [`LOCK_LP_AMOUNT`] have to stay.
    pub fn withdraw(&mut self, ring: &mut Ring, lp: u64, owned: u64, minimums: [u64; 2]) -> Answer {
        self.call(ring, |pool, ring, receipt| plain::withdraw(pool, ring, receipt, lp, owned, minimums))
    }

    /// Pays the creators; `share` millionths of their fees go to the protocol's counters.
    pub fn settle_creator_fee(&mut self, ring: &mut Ring, share: u64) -> Answer {
        self.call(ring, |pool, ring, receipt| plain::settle_creator_fee(pool, ring, receipt, share))
    }

    /// Closes or opens the pool for some calls.
    pub fn set_status(&mut self, ring: &mut Ring, bit: StatusBit, closed: bool) -> Answer {
        self.call(ring, |pool, ring, receipt| {
            plain::set_status(pool, ring, receipt, bit as u64, closed.into())
        })
    }

    /// The vaults less their counters: what all LP tokens are worth together.
    pub fn nets(&self) -> Result<[u64; 2], Refusal> {
        let mut nets = [0; 2];
        let number = plain::nets(&self.words(), &mut nets);
        answered(number, nets)
    }

    /// [`open`](Pool::open) by a holder. The register's entries are set to zeros, and the first becomes the
    /// opener's, with all LP tokens but [`LOCK_LP_AMOUNT`]. A holder 0 is refused first, with
    /// [`Refusal::InvalidInput`], here and in the two calls below.
    pub fn open_by(
        &mut self,
        ring: &mut Ring,
        register: &mut Register,
        holder: u64,
        opening: &Opening,
    ) -> Answer {
        let (opening, holders) = (opening.words(), register.words_mut());
        self.call(ring, |pool, ring, receipt| {
            plain::open_registered(pool, ring, receipt, &opening, holders, holder)
        })
    }

    /// [`deposit`](Pool::deposit) by a holder, whose entry is credited. A new holder, which is one without a
    /// balance, takes the first entry of balance 0. The last tests: [`Refusal::MathOverflow`] where the
    /// balance would pass its width, then [`Refusal::RegisterFull`] where a new holder finds every entry
    /// with a balance.
    pub fn deposit_by(
        &mut self,
        ring: &mut Ring,
        register: &mut Register,
        holder: u64,
        lp: u64,
        maximums: [u64; 2],
    ) -> Answer {
        let holders = register.words_mut();
        self.call(ring, |pool, ring, receipt| {
            plain::deposit_registered(pool, ring, receipt, holders, holder, lp, maximums)
        })
    }

    /// [`withdraw`](Pool::withdraw) by a holder, who owns the balance of his entry. The entry is debited; at
    /// 0 it keeps its number and is free for anyone.
    pub fn withdraw_by(
        &mut self,
        ring: &mut Ring,
        register: &mut Register,
        holder: u64,
        lp: u64,
        minimums: [u64; 2],
    ) -> Answer {
        let holders = register.words_mut();
        self.call(ring, |pool, ring, receipt| {
            plain::withdraw_registered(pool, ring, receipt, holders, holder, lp, minimums)
        })
    }

    fn call(
        &mut self,
        ring: &mut Ring,
        call: impl FnOnce(&mut plain::PoolWords, &mut plain::RingWords, &mut plain::ReceiptWords) -> u64,
    ) -> Answer {
        let mut receipt = Receipt::default();
        let number = call(self.words_mut(), ring.words_mut(), receipt.words_mut());
        answered(number, receipt)
    }
}

/// What a call gives, unless its number is that of a refusal.
pub(crate) fn answered<T>(number: u64, given: T) -> Result<T, Refusal> {
    match number {
        0 => Ok(given),
        _ => Err(Refusal::from_number(number).expect("the library answers with its table's numbers")),
    }
}
