//! The original's handlers, with their accounts laid out before the clock is read.

use anchor_lang::accounts::{AccountLoader, Context};
use anchor_lang::Result;
use data::Work;
use original::instructions::{deposit, swap_base_input, swap_base_output, withdraw};
use original::states::{ObservationState, PoolState};
use record::Call;
use runner::{deposit_accounts, swap_accounts, withdraw_accounts, Memory};
use std::hint::black_box;

/// What a handler is given.
pub enum Accounts<'a> {
    Swap(swap_base_input::Swap<'a>),
    Deposit(deposit::Deposit<'a>),
    Withdraw(withdraw::Withdraw<'a>),
}

/// None where no handler of this call was published.
pub fn accounts<'a>(memory: &'a Memory, work: &Work) -> Option<Accounts<'a>> {
    match work.call {
        Call::SwapByInput(swap) | Call::SwapByOutput(swap) => {
            Some(Accounts::Swap(swap_accounts(memory, swap.direction)))
        }
        Call::Deposit { .. } => Some(Accounts::Deposit(deposit_accounts(memory))),
        Call::Withdrawal { owned, .. } => Some(Accounts::Withdraw(withdraw_accounts(memory, owned))),
        _ => None,
    }
}

/// Reads what the handler is going to read.
pub fn touch(accounts: &Accounts) {
    match accounts {
        Accounts::Swap(accounts) => {
            touch_loaded(&accounts.pool_state, Some(&accounts.observation_state));
            let decimals =
                [&accounts.input_token_mint, &accounts.output_token_mint].map(|mint| mint.decimals);
            black_box((decimals, accounts.amm_config.trade_fee_rate));
            black_box([&accounts.input_vault, &accounts.output_vault].map(|vault| vault.amount));
        }
        Accounts::Deposit(accounts) => {
            touch_loaded(&accounts.pool_state, None);
            black_box([&accounts.vault_0_mint, &accounts.vault_1_mint].map(|mint| mint.decimals));
            black_box([&accounts.token_0_vault, &accounts.token_1_vault].map(|vault| vault.amount));
        }
        Accounts::Withdraw(accounts) => {
            touch_loaded(&accounts.pool_state, None);
            black_box([&accounts.vault_0_mint, &accounts.vault_1_mint].map(|mint| mint.decimals));
            black_box([&accounts.token_0_vault, &accounts.token_1_vault].map(|vault| vault.amount));
        }
    }
}

/// Reads what a handler is going to read of the memory that its accounts name.
pub fn touch_memory(memory: &Memory) {
    touch_loaded(&memory.pool_account(), Some(&memory.ring_account()));
    black_box(memory.vaults.each_ref().map(|vault| vault.get()));
    black_box(memory.config.trade_fee_rate);
}

fn touch_loaded(pool: &AccountLoader<PoolState>, ring: Option<&AccountLoader<ObservationState>>) {
    black_box(*pool.content.borrow());
    if let Some(ring) = ring {
        touch_ring(&ring.content.borrow());
    }
}

/// The newest entry and the one after it.
pub fn touch_ring(ring: &ObservationState) {
    let index = usize::from(ring.observation_index);
    black_box([ring.observations[index], ring.observations[(index + 1) % 100]]);
    black_box(ring.last_update_timestamp);
}

pub fn run(accounts: &mut Accounts, call: &Call) -> Result<()> {
    match (accounts, call) {
        (Accounts::Swap(accounts), Call::SwapByInput(swap)) => {
            swap_base_input::swap_base_input(Context { accounts }, swap.amount, swap.limit)
        }
        (Accounts::Swap(accounts), Call::SwapByOutput(swap)) => {
            swap_base_output::swap_base_output(Context { accounts }, swap.limit, swap.amount)
        }
        (Accounts::Deposit(accounts), Call::Deposit { lp, maximums: [m0, m1] }) => {
            deposit::deposit(Context { accounts }, *lp, *m0, *m1)
        }
        (Accounts::Withdraw(accounts), Call::Withdrawal { lp, minimums: [m0, m1], .. }) => {
            withdraw::withdraw(Context { accounts }, *lp, *m0, *m1)
        }
        _ => unreachable!("the accounts were laid out for this call"),
    }
}
