//! The functions of either build; bench/before-after gave the names of each copy a beginning of its own.
//!
//! All that is unsafe in this crate is in this file.

#![allow(unsafe_code)]

use port::Port;
use record::{filled_ring, Call, Charge, Grid, Opening, Pool, Rates, State};

type Words = *mut u64;
type Open = unsafe extern "C" fn(Words, Words, Words, *const u64) -> u64;
type One = unsafe extern "C" fn(Words, Words, Words, u64) -> u64;
type Two = unsafe extern "C" fn(Words, Words, Words, u64, u64) -> u64;
type Three = unsafe extern "C" fn(Words, Words, Words, u64, u64, u64) -> u64;
type Four = unsafe extern "C" fn(Words, Words, Words, u64, u64, u64, u64) -> u64;

pub struct Library {
    open: Open,
    base_input: Four,
    base_output: Four,
    deposit: Three,
    withdraw: Four,
    settle_creator_fee: One,
    set_status: Two,
}

/// How many numbers a build has in its pool's record and in its receipt.
pub struct Lengths {
    pub pool: usize,
    pub receipt: usize,
}

macro_rules! function {
    ($build:literal, $copy:literal, $name:literal, $($argument:ty),*) => {{
        extern "C" {
            #[link_name = concat!($build, "_", $copy, "_cp_swap_", $name)]
            fn function(pool: Words, ring: Words, receipt: Words, $(_: $argument),*) -> u64;
        }
        function
    }};
}

macro_rules! library {
    ($build:literal, $copy:literal) => {
        Library {
            open: function!($build, $copy, "open", *const u64),
            base_input: function!($build, $copy, "base_input", u64, u64, u64, u64),
            base_output: function!($build, $copy, "base_output", u64, u64, u64, u64),
            deposit: function!($build, $copy, "deposit", u64, u64, u64),
            withdraw: function!($build, $copy, "withdraw", u64, u64, u64, u64),
            settle_creator_fee: function!($build, $copy, "settle_creator_fee", u64),
            set_status: function!($build, $copy, "set_status", u64, u64),
        }
    };
}

macro_rules! copies {
    ($($copy:literal)*) => { [$([library!("before", $copy), library!("after", $copy)]),*] };
}

/// Each build is there four times. Where its functions lie makes a build faster or slower by some
/// hundredths, and over four places this evens out.
pub const COPIES: usize = 4;

/// Of each copy before and after.
pub static LIBRARIES: [[Library; 2]; COPIES] = copies!(0 1 2 3);

impl Library {
    /// The call's number, 0 where it was accepted.
    #[inline(always)]
    pub fn call(&self, memory: &mut Port, call: &Call) -> u64 {
        let Port { pool, ring, receipt } = memory;
        let (pool, ring, receipt) = (pool.as_mut_ptr(), ring.as_mut_ptr(), receipt.as_mut_ptr());
        // SAFETY: both builds have these functions with these arguments, and neither is newer than this
        // folder: the arrays and the opening's are whole and of today's lengths, of which an older build
        // uses the beginning. They do not overlap, and the library uses them during the call only.
        unsafe {
            match *call {
                Call::Opening(opening) => (self.open)(pool, ring, receipt, opening.words().as_ptr()),
                Call::SwapByInput(s) => {
                    (self.base_input)(pool, ring, receipt, s.direction, s.amount, s.limit, s.clock)
                }
                Call::SwapByOutput(s) => {
                    (self.base_output)(pool, ring, receipt, s.direction, s.amount, s.limit, s.clock)
                }
                Call::Deposit { lp, maximums: [m0, m1] } => (self.deposit)(pool, ring, receipt, lp, m0, m1),
                Call::Withdrawal { lp, owned, minimums: [m0, m1] } => {
                    (self.withdraw)(pool, ring, receipt, lp, owned, m0, m1)
                }
                Call::Settlement { share } => (self.settle_creator_fee)(pool, ring, receipt, share),
                Call::Status { bit, flag } => (self.set_status)(pool, ring, receipt, bit, flag),
            }
        }
    }

    /// None where the build refuses a plain opening.
    pub fn lengths(&self) -> Option<Lengths> {
        // An opening reads nothing of the three arrays and writes all of them: what still has the
        // mark is past the build's own.
        const MARK: u64 = u64::MAX;
        let state = State { pool: Pool::default(), ring: filled_ring(0, [MARK; 5]) };
        let mut memory = Port::of(&state, MARK);
        memory.pool.fill(MARK);
        let opening = Opening {
            amounts: [1 << 20; 2],
            fee_model: 0,
            enabled: 1,
            open_time: 0,
            rates: Rates::default(),
            charges: [Charge::default(); 2],
            grid: Grid::DEFAULT,
        };
        let written = |words: &[u64]| words.iter().position(|word| *word == MARK).unwrap_or(words.len());
        (self.call(&mut memory, &Call::Opening(opening)) == 0)
            .then(|| Lengths { pool: written(&memory.pool), receipt: written(&memory.receipt) })
    }
}
