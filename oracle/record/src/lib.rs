//! The pool as numbers, the calls on it and their answers, and the lines that carry them.
//! Both the original and the model of the rules are asked and answer in these.

mod call;
mod case;
mod form;
mod left;
mod pool;
mod ring;

pub use call::{Call, Opening, Receipt, Swap, OPENING_LENGTH, RECEIPT_COLUMNS, RECEIPT_LENGTH};
pub use case::{call_answer, Answer, Case};
pub use form::{form, Form, On, FORMS, WITH_REGISTER};
pub use left::{Left, LOCKED_LP};
pub use pool::{Charge, Grid, Pool, Rates, RingHead, State, POOL_COLUMNS, POOL_LENGTH};
pub use ring::{
    entry_at, filled_ring, only_newest_written, Entry, Ring, RingAlone, ENTRY_COLUMNS, ENTRY_LENGTH,
    RING_ENTRIES, RING_LENT,
};
