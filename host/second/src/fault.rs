//! Faults that tests switch on, to see that the trials notice them.
//!
//! Without the feature `faults` none can be on, and the question is a constant
//! that the compiler removes.

#[derive(Debug, Clone, Copy, PartialEq, Eq)]
pub enum Fault {
    /// A shared beginning is measured in bytes of UTF-8.
    BeginningCutInBytes,
    /// A star that was logged is written like a wildcard.
    LoggedStarBare,
    /// Only the first entry of a list that matches is charged.
    FirstEntryOnly,
    /// Records are charged although a Deny statement matches.
    DeniedCharged,
    /// A condition row holds where the record lacks its key.
    MissingKeyHolds,
}

#[cfg(not(feature = "faults"))]
#[inline(always)]
pub const fn is_on(_: Fault) -> bool {
    false
}

#[cfg(feature = "faults")]
pub use switch::{is_on, with};

#[cfg(feature = "faults")]
mod switch {
    use super::Fault;
    use std::cell::Cell;

    thread_local! {
        static ON: Cell<Option<Fault>> = const { Cell::new(None) };
    }

    pub fn is_on(fault: Fault) -> bool {
        ON.get() == Some(fault)
    }

    /// Runs something on this thread with the fault in place.
    pub fn with<T>(fault: Fault, run: impl FnOnce() -> T) -> T {
        ON.set(Some(fault));
        let answer = run();
        ON.set(None);
        answer
    }
}
