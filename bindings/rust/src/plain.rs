//! The library's functions over plain arrays, with any numbers: for callers who keep their pools
//! as numbers. Each answers 0, or the number of a [`Refusal`](crate::Refusal) and has written
//! nothing but a receipt of that number and zeros.
//!
//! All that is unsafe in this crate is in this file.

#![allow(unsafe_code)]

use crate::{Holder, Pool, Receipt, Ring};
use std::mem::{align_of, size_of};
use std::slice;

/// A pool's record: the fields of [`Pool`] in their order.
pub type PoolWords = [u64; 27];
/// A ring's entries: the fields of [`Ring`] in their order.
pub type RingWords = [u64; 500];
/// A receipt: the fields of [`Receipt`] in their order.
pub type ReceiptWords = [u64; 18];
/// The arguments of an opening: amount 0, amount 1, fee model, enabled, open time, the rates trade,
/// protocol, fund, creator and share, then points 0, maximum 0, points 1 and maximum 1, then spacing and
/// length.
pub type OpeningWords = [u64; 16];
/// A day sheet's numbers: trade, protocol, fund, creator and share rate for the next opening, and how
/// many bytes are held of a row that is begun.
pub type SheetWords = [u64; 6];
/// A row of a day sheet with its newline.
pub type RowBytes = [u8; 103];

#[rustfmt::skip]
extern "C" {
    fn cp_swap_open(pool: *mut u64, ring: *mut u64, receipt: *mut u64, opening: *const u64) -> u64;
    fn cp_swap_base_input(
        pool: *mut u64, ring: *mut u64, receipt: *mut u64,
        direction: u64, amount: u64, minimum: u64, clock: u64,
    ) -> u64;
    fn cp_swap_base_output(
        pool: *mut u64, ring: *mut u64, receipt: *mut u64,
        direction: u64, amount: u64, maximum: u64, clock: u64,
    ) -> u64;
    fn cp_swap_deposit(
        pool: *mut u64, ring: *mut u64, receipt: *mut u64, lp: u64, maximum_0: u64, maximum_1: u64,
    ) -> u64;
    fn cp_swap_withdraw(
        pool: *mut u64, ring: *mut u64, receipt: *mut u64,
        lp: u64, owned: u64, minimum_0: u64, minimum_1: u64,
    ) -> u64;
    fn cp_swap_settle_creator_fee(pool: *mut u64, ring: *mut u64, receipt: *mut u64, share: u64) -> u64;
    fn cp_swap_set_status(pool: *mut u64, ring: *mut u64, receipt: *mut u64, bit: u64, flag: u64) -> u64;
    fn cp_swap_nets(pool: *const u64, nets: *mut u64) -> u64;
    fn cp_swap_open_registered(
        pool: *mut u64, ring: *mut u64, receipt: *mut u64, opening: *const u64,
        holders: *mut u64, numbers: usize, holder: u64,
    ) -> u64;
    fn cp_swap_deposit_registered(
        pool: *mut u64, ring: *mut u64, receipt: *mut u64, holders: *mut u64, numbers: usize,
        holder: u64, lp: u64, maximum_0: u64, maximum_1: u64,
    ) -> u64;
    fn cp_swap_withdraw_registered(
        pool: *mut u64, ring: *mut u64, receipt: *mut u64, holders: *mut u64, numbers: usize,
        holder: u64, lp: u64, minimum_0: u64, minimum_1: u64,
    ) -> u64;
    fn cp_swap_balance(holders: *const u64, numbers: usize, holder: u64, balance: *mut u64) -> u64;
    fn cp_swap_day_sheet(
        pool: *mut u64, ring: *mut u64, sheet: *mut u64, held: *mut u8,
        input: *const u8, input_length: usize, output: *mut u8, output_length: usize, progress: *mut u64,
    ) -> u64;
    fn cp_swap_day_sheet_end(
        pool: *mut u64, ring: *mut u64, sheet: *mut u64, held: *const u8, output: *mut u8, progress: *mut u64,
    ) -> u64;
}

// In each call below the references are to whole arrays of the lengths that the library takes, or
// the length of a slice goes with it; those that are written do not overlap with another, and the
// library uses them during the call only.

/// An opening.
pub fn open(
    pool: &mut PoolWords,
    ring: &mut RingWords,
    receipt: &mut ReceiptWords,
    opening: &OpeningWords,
) -> u64 {
    let (pool, ring, receipt) = (pool.as_mut_ptr(), ring.as_mut_ptr(), receipt.as_mut_ptr());
    // SAFETY: as said above.
    unsafe { cp_swap_open(pool, ring, receipt, opening.as_ptr()) }
}

/// A swap by input: direction 0 pays token 0 in, 1 token 1.
pub fn base_input(
    pool: &mut PoolWords,
    ring: &mut RingWords,
    receipt: &mut ReceiptWords,
    direction: u64,
    amount: u64,
    minimum: u64,
    clock: u64,
) -> u64 {
    let (pool, ring, receipt) = (pool.as_mut_ptr(), ring.as_mut_ptr(), receipt.as_mut_ptr());
    // SAFETY: as said above.
    unsafe { cp_swap_base_input(pool, ring, receipt, direction, amount, minimum, clock) }
}

/// A swap by output: direction 0 pays token 0 in, 1 token 1.
pub fn base_output(
    pool: &mut PoolWords,
    ring: &mut RingWords,
    receipt: &mut ReceiptWords,
    direction: u64,
    amount: u64,
    maximum: u64,
    clock: u64,
) -> u64 {
    let (pool, ring, receipt) = (pool.as_mut_ptr(), ring.as_mut_ptr(), receipt.as_mut_ptr());
    // SAFETY: as said above.
    unsafe { cp_swap_base_output(pool, ring, receipt, direction, amount, maximum, clock) }
}

/// A deposit.
pub fn deposit(
    pool: &mut PoolWords,
    ring: &mut RingWords,
    receipt: &mut ReceiptWords,
    lp: u64,
    maximums: [u64; 2],
) -> u64 {
    let (pool, ring, receipt) = (pool.as_mut_ptr(), ring.as_mut_ptr(), receipt.as_mut_ptr());
    // SAFETY: as said above.
    unsafe { cp_swap_deposit(pool, ring, receipt, lp, maximums[0], maximums[1]) }
}

/// A withdrawal.
pub fn withdraw(
    pool: &mut PoolWords,
    ring: &mut RingWords,
    receipt: &mut ReceiptWords,
    lp: u64,
    owned: u64,
    minimums: [u64; 2],
) -> u64 {
    let (pool, ring, receipt) = (pool.as_mut_ptr(), ring.as_mut_ptr(), receipt.as_mut_ptr());
    // SAFETY: as said above.
    unsafe { cp_swap_withdraw(pool, ring, receipt, lp, owned, minimums[0], minimums[1]) }
}

/// A settlement.
pub fn settle_creator_fee(
    pool: &mut PoolWords,
    ring: &mut RingWords,
    receipt: &mut ReceiptWords,
    share: u64,
) -> u64 {
    let (pool, ring, receipt) = (pool.as_mut_ptr(), ring.as_mut_ptr(), receipt.as_mut_ptr());
    // SAFETY: as said above.
    unsafe { cp_swap_settle_creator_fee(pool, ring, receipt, share) }
}

/// A change of status.
pub fn set_status(
    pool: &mut PoolWords,
    ring: &mut RingWords,
    receipt: &mut ReceiptWords,
    bit: u64,
    flag: u64,
) -> u64 {
    let (pool, ring, receipt) = (pool.as_mut_ptr(), ring.as_mut_ptr(), receipt.as_mut_ptr());
    // SAFETY: as said above.
    unsafe { cp_swap_set_status(pool, ring, receipt, bit, flag) }
}

/// The vaults less their counters.
pub fn nets(pool: &PoolWords, nets: &mut [u64; 2]) -> u64 {
    // SAFETY: as said above.
    unsafe { cp_swap_nets(pool.as_ptr(), nets.as_mut_ptr()) }
}

/// An opening with a register: two numbers an entry, its number and its balance. An odd count of numbers is
/// no register. The old entries are tested and, where the opening is accepted, cleared.
pub fn open_registered(
    pool: &mut PoolWords,
    ring: &mut RingWords,
    receipt: &mut ReceiptWords,
    opening: &OpeningWords,
    holders: &mut [u64],
    holder: u64,
) -> u64 {
    let (pool, ring, receipt) = (pool.as_mut_ptr(), ring.as_mut_ptr(), receipt.as_mut_ptr());
    let (numbers, holders) = (holders.len(), holders.as_mut_ptr());
    // SAFETY: as said above.
    unsafe { cp_swap_open_registered(pool, ring, receipt, opening.as_ptr(), holders, numbers, holder) }
}

/// A deposit with a register, which is as in [`open_registered`].
pub fn deposit_registered(
    pool: &mut PoolWords,
    ring: &mut RingWords,
    receipt: &mut ReceiptWords,
    holders: &mut [u64],
    holder: u64,
    lp: u64,
    maximums: [u64; 2],
) -> u64 {
    let (pool, ring, receipt) = (pool.as_mut_ptr(), ring.as_mut_ptr(), receipt.as_mut_ptr());
    let (numbers, holders) = (holders.len(), holders.as_mut_ptr());
    let [maximum_0, maximum_1] = maximums;
    // SAFETY: as said above.
    unsafe {
        cp_swap_deposit_registered(pool, ring, receipt, holders, numbers, holder, lp, maximum_0, maximum_1)
    }
}

/// A withdrawal with a register, which is as in [`open_registered`].
pub fn withdraw_registered(
    pool: &mut PoolWords,
    ring: &mut RingWords,
    receipt: &mut ReceiptWords,
    holders: &mut [u64],
    holder: u64,
    lp: u64,
    minimums: [u64; 2],
) -> u64 {
    let (pool, ring, receipt) = (pool.as_mut_ptr(), ring.as_mut_ptr(), receipt.as_mut_ptr());
    let (numbers, holders) = (holders.len(), holders.as_mut_ptr());
    let [minimum_0, minimum_1] = minimums;
    // SAFETY: as said above.
    unsafe {
        cp_swap_withdraw_registered(pool, ring, receipt, holders, numbers, holder, lp, minimum_0, minimum_1)
    }
}

/// A holder's balance in a register, which is as in [`open_registered`]. Refused, it leaves `balance` as it was.
pub fn balance(holders: &[u64], holder: u64, balance: &mut u64) -> u64 {
    // SAFETY: as said above.
    unsafe { cp_swap_balance(holders.as_ptr(), holders.len(), holder, balance) }
}

/// A piece of a day sheet: takes bytes as long as the output has room for another row of 103, and
/// answers each row that they end. The progress is how many bytes were taken and how many written.
pub fn day_sheet(
    pool: &mut PoolWords,
    ring: &mut RingWords,
    sheet: &mut SheetWords,
    held: &mut RowBytes,
    input: &[u8],
    output: &mut [u8],
    progress: &mut [u64; 2],
) -> u64 {
    let (pool, ring, sheet, held) =
        (pool.as_mut_ptr(), ring.as_mut_ptr(), sheet.as_mut_ptr(), held.as_mut_ptr());
    let (room, output) = (output.len(), output.as_mut_ptr());
    let progress = progress.as_mut_ptr();
    // SAFETY: as said above.
    unsafe { cp_swap_day_sheet(pool, ring, sheet, held, input.as_ptr(), input.len(), output, room, progress) }
}

/// The end of a day sheet: answers the row that is begun, if there is one. The progress is 0 and how
/// many bytes were written, 0 or 103.
pub fn day_sheet_end(
    pool: &mut PoolWords,
    ring: &mut RingWords,
    sheet: &mut SheetWords,
    held: &RowBytes,
    output: &mut RowBytes,
    progress: &mut [u64; 2],
) -> u64 {
    let (pool, ring, sheet) = (pool.as_mut_ptr(), ring.as_mut_ptr(), sheet.as_mut_ptr());
    let (output, progress) = (output.as_mut_ptr(), progress.as_mut_ptr());
    // SAFETY: as said above.
    unsafe { cp_swap_day_sheet_end(pool, ring, sheet, held.as_ptr(), output, progress) }
}

/// The fields as an array; each of these types is as many u64 in a row, without gaps.
macro_rules! as_words {
    ($($record:ty: $words:ty),*) => {$(
        const _: () = assert!(
            size_of::<$record>() == size_of::<$words>() && align_of::<$record>() == align_of::<$words>()
        );

        impl $record {
            /// The numbers as the library has them, to read and to write.
            pub fn words_mut(&mut self) -> &mut $words {
                // SAFETY: repr(C) over u64 alone, and the same size: the same numbers in the same order.
                unsafe { &mut *(self as *mut Self).cast() }
            }
        }
    )*};
}

as_words!(Pool: PoolWords, Ring: RingWords, Receipt: ReceiptWords, Holder: [u64; 2]);

/// Entries of a register as numbers, two each.
pub fn holder_words(entries: &[Holder]) -> &[u64] {
    // SAFETY: an entry is two u64 without gaps, as said above; so many entries are twice as many u64.
    unsafe { slice::from_raw_parts(entries.as_ptr().cast(), 2 * entries.len()) }
}

/// Entries of a register as numbers, two each, to read and to write.
pub fn holder_words_mut(entries: &mut [Holder]) -> &mut [u64] {
    // SAFETY: an entry is two u64 without gaps, as said above; so many entries are twice as many u64.
    unsafe { slice::from_raw_parts_mut(entries.as_mut_ptr().cast(), 2 * entries.len()) }
}
