//! Asking the crate where it may panic: a panic is an answer too, distinguished by its message.

use std::any::Any;
use std::panic::{catch_unwind, set_hook, take_hook, AssertUnwindSafe};
use std::sync::atomic::{AtomicBool, Ordering};

/// What the crate's `unreachable!()` and its `unwrap()` say.
pub const UNREACHABLE: &str = "internal error: entered unreachable code";
pub const UNWRAPPED: &str = "called `Option::unwrap()` on a `None` value";

/// Whether the crate is being asked, so that only its panics stay silent.
static ASKING: AtomicBool = AtomicBool::new(false);

pub fn silence_while_asking() {
    let usual = take_hook();
    set_hook(Box::new(move |panic| {
        if !ASKING.load(Ordering::Relaxed) {
            usual(panic);
        }
    }));
}

/// What the crate returns, or the message of its panic.
pub fn ask<T>(question: impl FnOnce() -> T) -> Result<T, String> {
    ASKING.store(true, Ordering::Relaxed);
    let answer = catch_unwind(AssertUnwindSafe(question));
    ASKING.store(false, Ordering::Relaxed);
    answer.map_err(message)
}

fn message(panic: Box<dyn Any + Send>) -> String {
    match panic.downcast::<&'static str>() {
        Ok(text) => text.to_string(),
        Err(panic) => panic
            .downcast::<String>()
            .map_or_else(|_| String::new(), |text| *text),
    }
}
