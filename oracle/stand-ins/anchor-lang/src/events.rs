//! The last event, kept for the receipt: it is where the original says what it charged.

use std::any::Any;
use std::cell::RefCell;

thread_local! {
    static LAST: RefCell<Option<Box<dyn Any>>> = const { RefCell::new(None) };
}

/// Keeping an event takes memory from the heap, which the original's time should not be charged
/// for: with the feature `drop-events` it is made and dropped.
pub fn put<E: Any>(event: E) {
    if cfg!(feature = "drop-events") {
        std::hint::black_box(event);
    } else {
        LAST.replace(Some(Box::new(event)));
    }
}

/// Takes the last event out, if it is of this kind.
pub fn take<E: Any>() -> Option<E> {
    let event = LAST.take()?;
    event.downcast().ok().map(|event| *event)
}
