//! A module: notices where the second program stops, and what it says there.
//!
//! `compare.rs` and `states.rs` include it, so that they can name the case.

#![forbid(unsafe_code)]

use std::panic::{catch_unwind, set_hook, take_hook, AssertUnwindSafe};

/// Runs something; if it panics, gives what it says.
pub fn caught<T>(run: impl FnOnce() -> T) -> Result<T, String> {
    catch_unwind(AssertUnwindSafe(run)).map_err(|said| {
        let text = said.downcast_ref::<String>().map(String::as_str);
        let text = text.or_else(|| said.downcast_ref::<&str>().copied());
        text.unwrap_or("nothing").to_string()
    })
}

/// Runs something whose panics are all caught: none is to be seen on standard
/// error.
pub fn silenced<T>(run: impl FnOnce() -> T) -> T {
    let hook = take_hook();
    set_hook(Box::new(|_| {}));
    let given = run();
    set_hook(hook);
    given
}
