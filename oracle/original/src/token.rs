//! Stands in for `utils/token.rs`: transfers move numbers, and tokens carry no transfer fee.

use anchor_lang::error::{Error, Result};
use anchor_lang::accounts::AccountInfo;

pub fn get_transfer_fee(_mint: &AccountInfo, _amount: u64) -> Result<u64> {
    Ok(0)
}

pub fn get_transfer_inverse_fee(_mint: &AccountInfo, _amount: u64) -> Result<u64> {
    Ok(0)
}

pub fn transfer_from_user_to_pool_vault<'a>(
    _authority: AccountInfo<'a>,
    from: AccountInfo<'a>,
    to_vault: AccountInfo<'a>,
    _mint: AccountInfo<'a>,
    _token_program: AccountInfo<'a>,
    amount: u64,
    _mint_decimals: u8,
) -> Result<()> {
    transfer(from, to_vault, amount)
}

pub fn transfer_from_pool_vault_to_user<'a>(
    _authority: AccountInfo<'a>,
    from_vault: AccountInfo<'a>,
    to: AccountInfo<'a>,
    _mint: AccountInfo<'a>,
    _token_program: AccountInfo<'a>,
    amount: u64,
    _mint_decimals: u8,
    _signer_seeds: &[&[&[u8]]],
) -> Result<()> {
    transfer(from_vault, to, amount)
}

/// Minting is left out by document 01: the pool's own count of LP tokens is what it keeps.
pub fn token_mint_to<'a>(
    _authority: AccountInfo<'a>,
    _token_program: AccountInfo<'a>,
    _mint: AccountInfo<'a>,
    _destination: AccountInfo<'a>,
    _amount: u64,
    _signer_seeds: &[&[&[u8]]],
) -> Result<()> {
    Ok(())
}

/// Burning is left out like minting; the handler has compared with the owner's balance.
pub fn token_burn<'a>(
    _authority: AccountInfo<'a>,
    _token_program: AccountInfo<'a>,
    _mint: AccountInfo<'a>,
    _from: AccountInfo<'a>,
    _amount: u64,
    _signer_seeds: &[&[&[u8]]],
) -> Result<()> {
    Ok(())
}

fn transfer(from: AccountInfo, to: AccountInfo, amount: u64) -> Result<()> {
    if let Some(vault) = from.balance {
        vault.set(vault.get().checked_sub(amount).ok_or(Error::BalanceShort)?);
    }
    if let Some(vault) = to.balance {
        vault.set(vault.get().checked_add(amount).ok_or(Error::BalancePastU64)?);
    }
    Ok(())
}
