//! A clock that can be set.

use crate::error::Result;
use std::cell::Cell;

thread_local! {
    static SECONDS: Cell<i64> = const { Cell::new(0) };
}

pub struct Clock {
    pub unix_timestamp: i64,
    pub epoch: u64,
}

impl Clock {
    /// Epochs are left out by document 01, so there is only epoch 0.
    pub fn get() -> Result<Clock> {
        Ok(Clock { unix_timestamp: SECONDS.get(), epoch: 0 })
    }
}

/// The original reads its signed clock back as unsigned, so every 64-bit clock can be set.
pub fn set(seconds: u64) {
    SECONDS.set(seconds as i64);
}
