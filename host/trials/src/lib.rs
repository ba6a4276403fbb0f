//! Trials of the six operations, for any implementation of them.
//!
//! Each trial is a function over a `Subject` and answers what went wrong. They
//! are run on the proved library by the tests of `muckposy`, and by the tests
//! of this package on the second implementation and on wrong ones, which must
//! not pass.
//!
//! `texts`, `changes` and `tally` are what other tests write their cases with.

#![forbid(unsafe_code)]

pub mod changes;
pub mod contents;
pub mod damage;
pub mod encoding;
pub mod joining;
pub mod limits;
pub mod logs;
pub mod numbered;
pub mod outputs;
pub mod refusals;
pub mod rows;
mod spoiling;
pub mod subject;
pub mod tally;
pub mod texts;

pub use encoding::Encoding;
pub use subject::Subject;

use std::fmt::Debug;

/// Nothing, or what went wrong.
pub type Check = Result<(), String>;

/// A trial under its name.
pub type Trial = (&'static str, fn(&Subject) -> Check);

/// Every trial but the generated logs and damaged rooms, which go by seeds.
pub const ALL: [Trial; 26] = [
    ("numbered", numbered::trials_hold),
    ("charged twice", numbered::every_entry_is_charged),
    ("denied", numbered::denied_records_charge_nothing),
    ("star stays plain", numbered::a_held_star_is_no_wildcard),
    ("charged rows", rows::only_charged),
    ("reading order", rows::in_reading_order),
    ("every statement", rows::every_statement),
    ("decide", refusals::decide),
    ("feed", refusals::feed),
    ("join", refusals::join),
    ("finish", refusals::finish),
    ("restate", refusals::restate),
    ("fresh", refusals::fresh),
    ("room lengths", refusals::room_lengths),
    ("without cause", refusals::nothing_without_cause),
    ("output lengths", outputs::lengths),
    ("longest results", outputs::longest),
    ("text lengths", limits::bytes),
    ("characters", limits::characters),
    ("longest beginning", limits::longest_beginning),
    ("longest entry", limits::longest_entry),
    ("shared bytes", limits::shared_bytes),
    ("contents", contents::by_hand),
    ("marks", contents::marks_and_leavings),
    ("joined contents", joining::by_hand),
    ("half empty lists", joining::half_empty_lists),
];

pub(crate) fn ensure(holds: bool, trouble: impl FnOnce() -> String) -> Check {
    if holds {
        Ok(())
    } else {
        Err(trouble())
    }
}

/// Whether an answer is the expected one.
pub(crate) fn same<T: PartialEq + Debug>(found: T, expected: T, what: &str) -> Check {
    ensure(found == expected, || {
        format!("{what}: {found:?}, not {expected:?}")
    })
}

pub(crate) fn shown(text: &[u8]) -> String {
    text.escape_ascii().to_string()
}
