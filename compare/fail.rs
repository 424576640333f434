//! What is wrong on purpose may fail, as a checker may that takes a table which is no plan.

use std::cell::Cell;
use std::panic::{catch_unwind, set_hook, take_hook, AssertUnwindSafe};

thread_local! {
    static AT_WORK: Cell<bool> = Cell::new(false);
}

/// Lets what is wrong on purpose fail without a word. What else fails is told as ever.
pub fn fail_silently() {
    let told = take_hook();
    set_hook(Box::new(move |fault| {
        if !AT_WORK.with(Cell::get) {
            told(fault)
        }
    }));
}

/// What something wrong on purpose gives, or nothing where it fails.
pub fn given<T>(work: impl FnOnce() -> T) -> Option<T> {
    AT_WORK.with(|at_work| at_work.set(true));
    let given = catch_unwind(AssertUnwindSafe(work)).ok();
    AT_WORK.with(|at_work| at_work.set(false));
    given
}
