//! The original's accounts, laid out from a state and read back into one.

use anchor_lang::accounts::{AccountInfo, AccountLoader, InterfaceAccount, Pubkey};
use anchor_spl::token_interface::{Mint, TokenAccount};
use original::states::{AmmConfig, Observation, ObservationState, PoolState};
use record::{Entry, Pool, RingHead, State};
use std::cell::{Cell, RefCell};

pub static VAULT_KEYS: [Pubkey; 2] = [Pubkey(1), Pubkey(2)];
pub static TOKEN_PROGRAM: Pubkey = Pubkey(3);
static POOL: Pubkey = Pubkey(4);
static RING: Pubkey = Pubkey(5);
static WALLET: Pubkey = Pubkey(6);
static MINT: Pubkey = Pubkey(7);

pub struct Memory {
    pub pool: RefCell<PoolState>,
    pub ring: RefCell<ObservationState>,
    pub vaults: [Cell<u64>; 2],
    pub config: AmmConfig,
}

impl Memory {
    /// The reason where a number of the state is wider than the Rust's field.
    pub fn of(state: &State) -> Result<Memory, &'static str> {
        Ok(Memory {
            pool: RefCell::new(pool_state(&state.pool)?),
            ring: RefCell::new(observation_state(&state.pool.head, &state.ring)?),
            vaults: state.pool.vaults.map(Cell::new),
            config: config(&state.pool),
        })
    }

    /// Writes what the original keeps over the state that it was laid out from.
    pub fn read_into(&self, state: &mut State) {
        let ring = self.ring.borrow();
        read_pool(&self.pool.borrow(), &mut state.pool);
        state.pool.vaults = [self.vaults[0].get(), self.vaults[1].get()];
        state.pool.head = head(&ring);
        for (to, from) in state.ring.iter_mut().zip(ring.observations) {
            *to = entry(from);
        }
    }

    pub fn pool_account(&self) -> AccountLoader<'_, PoolState> {
        AccountLoader { key: POOL, content: &self.pool }
    }

    pub fn ring_account(&self) -> AccountLoader<'_, ObservationState> {
        AccountLoader { key: RING, content: &self.ring }
    }

    pub fn vault(&self, token: usize) -> Box<InterfaceAccount<'_, TokenAccount>> {
        let balance = &self.vaults[token];
        let info = AccountInfo { key: &VAULT_KEYS[token], owner: &TOKEN_PROGRAM, balance: Some(balance) };
        token_account(info, balance.get())
    }
}

/// An account outside the pool; only the LP tokens that it holds are ever read.
pub fn wallet(amount: u64) -> Box<InterfaceAccount<'static, TokenAccount>> {
    token_account(address(&WALLET), amount)
}

pub fn mint() -> Box<InterfaceAccount<'static, Mint>> {
    Box::new(InterfaceAccount { info: address(&MINT), content: Mint { decimals: 0 } })
}

pub fn address(key: &'static Pubkey) -> AccountInfo<'static> {
    AccountInfo { key, owner: &TOKEN_PROGRAM, balance: None }
}

fn token_account(info: AccountInfo<'_>, amount: u64) -> Box<InterfaceAccount<'_, TokenAccount>> {
    Box::new(InterfaceAccount { info, content: TokenAccount { amount, mint: MINT } })
}

pub fn pool_state(pool: &Pool) -> Result<PoolState, &'static str> {
    Ok(PoolState {
        token_0_vault: VAULT_KEYS[0],
        token_1_vault: VAULT_KEYS[1],
        observation_key: RING,
        status: u8::try_from(pool.status).map_err(|_| "a status above 255")?,
        lp_supply: pool.supply,
        protocol_fees_token_0: pool.protocol[0],
        protocol_fees_token_1: pool.protocol[1],
        fund_fees_token_0: pool.fund[0],
        fund_fees_token_1: pool.fund[1],
        open_time: pool.open_time,
        creator_fee_on: u8::try_from(pool.fee_model).map_err(|_| "a fee model above 255")?,
        enable_creator_fee: pool.enabled,
        creator_fees_token_0: pool.creator[0],
        creator_fees_token_1: pool.creator[1],
        ..PoolState::default()
    })
}

pub fn read_pool(from: &PoolState, to: &mut Pool) {
    to.protocol = [from.protocol_fees_token_0, from.protocol_fees_token_1];
    to.fund = [from.fund_fees_token_0, from.fund_fees_token_1];
    to.creator = [from.creator_fees_token_0, from.creator_fees_token_1];
    to.supply = from.lp_supply;
    to.status = from.status.into();
    to.open_time = from.open_time;
    to.fee_model = from.creator_fee_on.into();
    to.enabled = from.enable_creator_fee;
}

pub fn observation_state(head: &RingHead, ring: &record::Ring) -> Result<ObservationState, &'static str> {
    Ok(ObservationState {
        initialized: head.used,
        observation_index: u16::try_from(head.index).map_err(|_| "a ring index above 65,535")?,
        observations: ring.map(observation),
        last_update_timestamp: head.mark,
        ..ObservationState::default()
    })
}

pub fn head(ring: &ObservationState) -> RingHead {
    RingHead {
        used: ring.initialized,
        index: ring.observation_index.into(),
        mark: ring.last_update_timestamp,
    }
}

pub fn wide(high: u64, low: u64) -> u128 {
    u128::from(high) << 64 | u128::from(low)
}

pub fn halves(number: u128) -> [u64; 2] {
    [(number >> 64) as u64, number as u64]
}

fn observation([clock, high_0, low_0, high_1, low_1]: Entry) -> Observation {
    Observation {
        block_timestamp: clock,
        cumulative_token_0_price_x32: wide(high_0, low_0),
        cumulative_token_1_price_x32: wide(high_1, low_1),
    }
}

pub fn entry(from: Observation) -> Entry {
    let [high_0, low_0] = halves(from.cumulative_token_0_price_x32);
    let [high_1, low_1] = halves(from.cumulative_token_1_price_x32);
    [from.block_timestamp, high_0, low_0, high_1, low_1]
}

pub fn config(pool: &Pool) -> AmmConfig {
    AmmConfig {
        trade_fee_rate: pool.rates.trade,
        protocol_fee_rate: pool.rates.protocol,
        fund_fee_rate: pool.rates.fund,
        creator_fee_rate: pool.rates.creator,
        creator_fee_share_rate: pool.rates.share,
        ..AmmConfig::default()
    }
}
