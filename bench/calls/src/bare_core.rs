//! The original's bare core: parameters, calculator, booking and ring, without accounts, transfers
//! or events, and with none of the handlers' checks.

use crate::handler::touch_ring;
use anchor_lang::error::Result;
use data::Work;
use original::curve::{CurveCalculator, RoundDirection, SwapResult, TradingTokenResult};
use original::error::ErrorCode;
use original::states::{AmmConfig, ObservationState, PoolState, PoolStatusBitFlag, PoolStatusBitIndex};
use record::{Call, Swap};
use runner::{config, observation_state, pool_state, VAULT_KEYS};
use std::hint::black_box;

/// Amount, nets, the rates (trade, creator, protocol, fund), and whether the creator fee is on input.
type Calculator = fn(u128, u128, u128, u64, u64, u64, u64, bool) -> Option<SwapResult>;

pub struct Core {
    pool: PoolState,
    ring: ObservationState,
    vaults: [u64; 2],
    config: AmmConfig,
}

impl Core {
    pub fn of(work: &Work) -> Core {
        let pool = &work.state.pool;
        Core {
            pool: pool_state(pool).expect("the data fits the original's widths"),
            ring: observation_state(&pool.head, &work.state.ring).expect("the data fits"),
            vaults: pool.vaults,
            config: config(pool),
        }
    }

    /// Reads what the core is going to read.
    pub fn touch(&self) {
        black_box((self.pool, self.vaults, self.config.trade_fee_rate));
        touch_ring(&self.ring);
    }

    pub fn vaults(&self) -> [u64; 2] {
        self.vaults
    }

    /// An opening is not in the Rust.
    pub fn run(&mut self, call: &Call) -> Result<()> {
        match call {
            Call::Opening(_) => Ok(()),
            Call::SwapByInput(swap) => self.swap(swap, CurveCalculator::swap_base_input),
            Call::SwapByOutput(swap) => self.swap(swap, CurveCalculator::swap_base_output),
            Call::Deposit { lp, .. } => self.deposit(*lp),
            Call::Withdrawal { lp, .. } => self.withdraw(*lp),
            Call::Settlement { share } => self.pool.settle_creator_fee(*share).map(|_| ()),
            Call::Status { bit, flag } => {
                self.set_status(*bit, *flag);
                Ok(())
            }
        }
    }

    #[inline(always)]
    fn swap(&mut self, swap: &Swap, calculator: Calculator) -> Result<()> {
        let (token_in, token_out) = (swap.direction as usize, 1 - swap.direction as usize);
        let [vault_in, vault_out] = [self.vaults[token_in], self.vaults[token_out]];
        let keys = [VAULT_KEYS[token_in], VAULT_KEYS[token_out]];
        let params = self.pool.get_swap_params(keys[0], keys[1], vault_in, vault_out)?;
        let result = calculator(
            swap.amount.into(),
            params.total_input_token_amount.into(),
            params.total_output_token_amount.into(),
            self.config.trade_fee_rate,
            self.pool.adjust_creator_fee_rate(self.config.creator_fee_rate),
            self.config.protocol_fee_rate,
            self.config.fund_fee_rate,
            params.is_creator_fee_on_input,
        )
        .ok_or(ErrorCode::ZeroTradingTokens)?;
        let fees = [result.protocol_fee, result.fund_fee, result.creator_fee].map(|fee| fee as u64);
        self.pool.update_fees(fees[0], fees[1], fees[2], params.trade_direction)?;
        self.vaults[token_in] += result.input_amount as u64;
        self.vaults[token_out] -= result.output_amount as u64;
        self.ring.update(swap.clock, params.token_0_price_x64, params.token_1_price_x64)
    }

    fn tokens(&self, lp: u64, round: RoundDirection) -> Result<TradingTokenResult> {
        let (net_0, net_1) = self.pool.vault_amount_without_fee(self.vaults[0], self.vaults[1])?;
        let supply = self.pool.lp_supply;
        let tokens = CurveCalculator::lp_tokens_to_trading_tokens(
            lp.into(),
            supply.into(),
            net_0.into(),
            net_1.into(),
            round,
        );
        Ok(tokens.ok_or(ErrorCode::ZeroTradingTokens)?)
    }

    fn deposit(&mut self, lp: u64) -> Result<()> {
        let tokens = self.tokens(lp, RoundDirection::Ceiling)?;
        self.vaults[0] += tokens.token_0_amount as u64;
        self.vaults[1] += tokens.token_1_amount as u64;
        self.pool.lp_supply += lp;
        Ok(())
    }

    fn withdraw(&mut self, lp: u64) -> Result<()> {
        let tokens = self.tokens(lp, RoundDirection::Floor)?;
        self.vaults[0] -= tokens.token_0_amount as u64;
        self.vaults[1] -= tokens.token_1_amount as u64;
        self.pool.lp_supply -= lp;
        Ok(())
    }

    fn set_status(&mut self, bit: u64, flag: u64) {
        let bit = match bit {
            0 => PoolStatusBitIndex::Deposit,
            1 => PoolStatusBitIndex::Withdraw,
            _ => PoolStatusBitIndex::Swap,
        };
        let flag = if flag == 0 { PoolStatusBitFlag::Enable } else { PoolStatusBitFlag::Disable };
        self.pool.set_status_by_bit(bit, flag);
    }
}
