//! The original's panics as values.

use std::any::Any;
use std::panic::{AssertUnwindSafe, catch_unwind, set_hook, take_hook};

/// The call's value, or the message of its panic, which is printed nowhere.
pub fn message_or<T>(call: impl FnOnce() -> T) -> Result<T, String> {
    let loud = take_hook();
    set_hook(Box::new(|_| {}));
    let outcome = catch_unwind(AssertUnwindSafe(call));
    set_hook(loud);
    outcome.map_err(|payload| message(payload.as_ref()))
}

fn message(payload: &(dyn Any + Send)) -> String {
    if let Some(text) = payload.downcast_ref::<&str>() {
        return text.to_string();
    }
    payload
        .downcast_ref::<String>()
        .expect("a panic of the original carries a text")
        .clone()
}
