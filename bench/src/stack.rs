//! Checks in a thread with little stack.

use crate::sheets::Timed;

/// A check that needs more stack than so many bytes ends the program.
pub fn check_in(size: usize, sheets: &[Timed], check: impl Fn(&Timed) + Send) {
    std::thread::scope(|scope| {
        let thread = std::thread::Builder::new().stack_size(size);
        thread.spawn_scoped(scope, || sheets.iter().for_each(check)).expect("a thread");
    });
}
