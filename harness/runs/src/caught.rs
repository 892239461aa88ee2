//! A panic is a failure like any other, and is told as one.

use std::panic::{catch_unwind, AssertUnwindSafe};

/// Has panics say nothing by themselves: what runs in [`caught`] is told as an error.
pub fn silence() {
    std::panic::set_hook(Box::new(|_| ()));
}

/// A panic as an error.
pub fn caught<T>(body: impl FnOnce() -> Result<T, String>) -> Result<T, String> {
    catch_unwind(AssertUnwindSafe(body)).unwrap_or_else(|panic| {
        let said = panic
            .downcast_ref::<String>()
            .map(String::as_str)
            .or_else(|| panic.downcast_ref::<&str>().copied());
        Err(format!("a panic: {}", said.unwrap_or("without words")))
    })
}
