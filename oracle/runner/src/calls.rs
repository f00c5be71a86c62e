//! The calls that the Rust has.

use crate::failure::{caught, Failure};
use crate::memory::{address, mint, wallet, Memory, TOKEN_PROGRAM};
use crate::{Cause, Change, Run};
use anchor_lang::accounts::{Account, Context, Interface, Program, Signer, UncheckedAccount};
use anchor_lang::{clock, events};
use original::instructions::{deposit, swap_base_input, swap_base_output, withdraw};
use original::states::{LpChangeEvent, PoolStatusBitFlag, PoolStatusBitIndex, SwapEvent};
use record::{Call, Receipt, State, Swap, ENTRY_COLUMNS, POOL_COLUMNS};
use std::marker::PhantomData;

/// The call's run, or the reason why the Rust has no such call.
pub fn run(before: &State, call: &Call) -> Result<Run, &'static str> {
    let memory = Memory::of(before)?;
    let result = match call {
        Call::Opening(_) => return Err("opening"),
        Call::SwapByInput(swap) => swapped(&memory, swap, |context| {
            swap_base_input::swap_base_input(context, swap.amount, swap.limit)
        }),
        Call::SwapByOutput(swap) => swapped(&memory, swap, |context| {
            swap_base_output::swap_base_output(context, swap.limit, swap.amount)
        }),
        Call::Deposit { lp, maximums: [m0, m1] } => {
            let mut accounts = deposit_accounts(&memory);
            caught(|| deposit::deposit(Context { accounts: &mut accounts }, *lp, *m0, *m1)).map(|()| [0, 0])
        }
        Call::Withdrawal { lp, owned, minimums: [m0, m1] } => {
            let mut accounts = withdraw_accounts(&memory, *owned);
            caught(|| withdraw::withdraw(Context { accounts: &mut accounts }, *lp, *m0, *m1)).map(|()| [0, 0])
        }
        Call::Settlement { share } => settled(&memory, *share),
        Call::Status { bit, flag } => set_status(&memory, *bit, *flag)?,
    };
    let mut after = before.clone();
    memory.read_into(&mut after);
    Ok(match result {
        Ok(owed) => accepted(before, call, after, owed),
        Err(failure) => refused(before, failure, &after),
    })
}

fn accepted(before: &State, call: &Call, state: State, owed: [u64; 2]) -> Run {
    let receipt = receipt(before, call, &state, owed);
    Run { number: 0, receipt, state, booked: vec![], cause: Cause::None }
}

fn refused(before: &State, failure: Failure, left: &State) -> Run {
    Run {
        number: failure.number(),
        receipt: Receipt::default(),
        state: before.clone(),
        booked: changes(before, left),
        cause: failure.cause(),
    }
}

type Settled = Result<[u64; 2], Failure>;

fn swapped(
    memory: &Memory,
    swap: &Swap,
    handler: impl FnOnce(Context<swap_base_input::Swap>) -> anchor_lang::Result<()>,
) -> Settled {
    clock::set(swap.clock);
    let mut accounts = swap_accounts(memory, swap.direction);
    caught(|| handler(Context { accounts: &mut accounts })).map(|()| [0, 0])
}

/// The Rust here only books; paying the creators is in an instruction that is not at hand.
fn settled(memory: &Memory, share: u64) -> Settled {
    caught(|| memory.pool.borrow_mut().settle_creator_fee(share)).map(<[u64; 2]>::from)
}

/// Bit and flag are enums in the Rust: other numbers can't be said to it.
fn set_status(memory: &Memory, bit: u64, flag: u64) -> Result<Settled, &'static str> {
    let bit = match bit {
        0 => PoolStatusBitIndex::Deposit,
        1 => PoolStatusBitIndex::Withdraw,
        2 => PoolStatusBitIndex::Swap,
        _ => return Err("a status bit above 2"),
    };
    let flag = match flag {
        0 => PoolStatusBitFlag::Enable,
        1 => PoolStatusBitFlag::Disable,
        _ => return Err("a status flag above 1"),
    };
    memory.pool.borrow_mut().set_status_by_bit(bit, flag);
    Ok(Ok([0, 0]))
}

/// Any direction but 0 and 1 names vault 0 twice, which is neither way through the pool.
pub fn swap_accounts(memory: &Memory, direction: u64) -> swap_base_input::Swap<'_> {
    let (token_in, token_out) = match direction {
        0 => (0, 1),
        1 => (1, 0),
        _ => (0, 0),
    };
    let token_program = || Interface(address(&TOKEN_PROGRAM), PhantomData);
    swap_base_input::Swap {
        payer: Signer(address(&TOKEN_PROGRAM)),
        authority: UncheckedAccount(address(&TOKEN_PROGRAM)),
        amm_config: Box::new(Account(&memory.config)),
        pool_state: memory.pool_account(),
        input_token_account: wallet(0),
        output_token_account: wallet(0),
        input_vault: memory.vault(token_in),
        output_vault: memory.vault(token_out),
        input_token_program: token_program(),
        output_token_program: token_program(),
        input_token_mint: mint(),
        output_token_mint: mint(),
        observation_state: memory.ring_account(),
    }
}

pub fn deposit_accounts(memory: &Memory) -> deposit::Deposit<'_> {
    deposit::Deposit {
        owner: Signer(address(&TOKEN_PROGRAM)),
        authority: UncheckedAccount(address(&TOKEN_PROGRAM)),
        pool_state: memory.pool_account(),
        owner_lp_token: wallet(0),
        token_0_account: wallet(0),
        token_1_account: wallet(0),
        token_0_vault: memory.vault(0),
        token_1_vault: memory.vault(1),
        token_program: Program(address(&TOKEN_PROGRAM), PhantomData),
        token_program_2022: Program(address(&TOKEN_PROGRAM), PhantomData),
        vault_0_mint: mint(),
        vault_1_mint: mint(),
        lp_mint: mint(),
    }
}

pub fn withdraw_accounts(memory: &Memory, owned: u64) -> withdraw::Withdraw<'_> {
    withdraw::Withdraw {
        owner: Signer(address(&TOKEN_PROGRAM)),
        authority: UncheckedAccount(address(&TOKEN_PROGRAM)),
        pool_state: memory.pool_account(),
        owner_lp_token: wallet(owned),
        token_0_account: wallet(0),
        token_1_account: wallet(0),
        token_0_vault: memory.vault(0),
        token_1_vault: memory.vault(1),
        token_program: Program(address(&TOKEN_PROGRAM), PhantomData),
        token_program_2022: Program(address(&TOKEN_PROGRAM), PhantomData),
        vault_0_mint: mint(),
        vault_1_mint: mint(),
        lp_mint: mint(),
        memo_program: UncheckedAccount(address(&TOKEN_PROGRAM)),
    }
}

fn receipt(before: &State, call: &Call, after: &State, owed: [u64; 2]) -> Receipt {
    let empty = Receipt { kind: call.kind(), ..Receipt::default() };
    match call {
        Call::Opening(_) | Call::Status { .. } => empty,
        Call::SwapByInput(swap) | Call::SwapByOutput(swap) => swap_receipt(before, swap, after, empty),
        Call::Deposit { lp, .. } => {
            let (paid_in, charges) = moved_amounts();
            Receipt { lp: *lp, paid_in, charges, ..empty }
        }
        Call::Withdrawal { lp, .. } => {
            let (paid_out, charges) = moved_amounts();
            Receipt { lp: *lp, paid_out, charges, ..empty }
        }
        Call::Settlement { .. } => {
            let shared = [0, 1].map(|t| after.pool.protocol[t] - before.pool.protocol[t]);
            Receipt { paid_out: owed, shared, ..empty }
        }
    }
}

/// The original's event says what was paid and charged, but for the protocol and fund fee,
/// which are what it added to those counters.
fn swap_receipt(before: &State, swap: &Swap, after: &State, empty: Receipt) -> Receipt {
    let event: SwapEvent = events::take().expect("an accepted swap emits its event");
    let (token_in, token_out) = if swap.direction == 0 { (0, 1) } else { (1, 0) };
    let mut receipt = Receipt {
        direction: swap.direction,
        clock: swap.clock,
        trade_fee: event.trade_fee,
        protocol_fee: after.pool.protocol[token_in] - before.pool.protocol[token_in],
        fund_fee: after.pool.fund[token_in] - before.pool.fund[token_in],
        creator_fee: event.creator_fee,
        creator_fee_token: if event.creator_fee_on_input { token_in } else { token_out } as u64,
        ..empty
    };
    receipt.paid_in[token_in] = event.input_amount;
    receipt.paid_out[token_out] = event.output_amount;
    receipt.charges[token_in] = event.input_transfer_fee;
    receipt.charges[token_out] = event.output_transfer_fee;
    receipt
}

/// What reached or left the vaults, and the charges.
fn moved_amounts() -> ([u64; 2], [u64; 2]) {
    let event: LpChangeEvent = events::take().expect("an accepted change of LP emits its event");
    let charges = [event.token_0_transfer_fee, event.token_1_transfer_fee];
    ([event.token_0_amount, event.token_1_amount], charges)
}

fn changes(before: &State, after: &State) -> Vec<Change> {
    let pool = POOL_COLUMNS.iter().zip(before.pool.words()).zip(after.pool.words());
    let change =
        |((column, before), after): ((&&str, u64), u64)| Change { column: column.to_string(), before, after };
    let mut changes: Vec<Change> = pool.filter(|((_, before), after)| before != after).map(change).collect();
    for (at, (old, new)) in
        before.ring.iter().zip(&after.ring).enumerate().filter(|(_, (old, new))| old != new)
    {
        let words = ENTRY_COLUMNS.iter().zip(old).zip(new);
        changes.extend(words.map(|((column, before), after)| Change {
            column: format!("{column} at {at}"),
            before: *before,
            after: *after,
        }));
    }
    changes.retain(|change| change.before != change.after);
    changes
}
