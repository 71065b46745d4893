//! libtw2 stops on some numbers that no game leaves. Then there is nothing to compare with.

use std::cell::Cell;
use std::panic::{AssertUnwindSafe, catch_unwind, set_hook, take_hook};

thread_local! {
    static ASKED: Cell<bool> = const { Cell::new(false) };
}

/// None where it stops.
pub fn unless_it_stops<T>(ask: impl FnOnce() -> T) -> Option<T> {
    ASKED.set(true);
    let answer = catch_unwind(AssertUnwindSafe(ask)).ok();
    ASKED.set(false);
    answer
}

/// So that libtw2 says nothing of it, which it would do thousands of times.
pub fn hush() {
    let hook = take_hook();
    set_hook(Box::new(move |panic| {
        if !ASKED.get() {
            hook(panic);
        }
    }));
}
