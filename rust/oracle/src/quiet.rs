//! Panics caught, and kept quiet.
use std::cell::Cell;
use std::panic::{self, AssertUnwindSafe};
use std::sync::Once;

thread_local! {
    /// Whether this thread is inside a decoder.
    static INSIDE: Cell<bool> = const { Cell::new(false) };
}

/// Runs `f`: nothing where it panicked. Only panics inside are silent: those of the caller's own
/// code, and of other threads, print as ever.
pub fn quietly<T>(f: impl FnOnce() -> T) -> Option<T> {
    static HOOK: Once = Once::new();
    HOOK.call_once(|| {
        let before = panic::take_hook();
        panic::set_hook(Box::new(move |info| {
            if !INSIDE.with(Cell::get) {
                before(info);
            }
        }));
    });
    INSIDE.with(|inside| inside.set(true));
    let answer = panic::catch_unwind(AssertUnwindSafe(f)).ok();
    INSIDE.with(|inside| inside.set(false));
    answer
}
