//! Runs a function on a stack of a given size: deep trees recurse.

use std::thread;

/// The original keeps some frames for each of up to 16,383 levels.
pub const LARGE: usize = 1 << 30;

/// What the function gives, or its panic.
pub fn run_on<T: Send + 'static>(
    bytes: usize,
    function: impl FnOnce() -> T + Send + 'static,
) -> thread::Result<T> {
    let thread = thread::Builder::new().stack_size(bytes).spawn(function);
    thread.expect("a thread with that stack").join()
}
