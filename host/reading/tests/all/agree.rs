//! Both implementations on one text.

use second::layouts::{self, Policy, Record};
use second::Refusal;
use std::fmt::Debug;

/// What both readers say of a policy text.
pub fn policy(text: &[u8]) -> Result<Policy, Refusal> {
    let answers = [reading::read_policy(text), layouts::read_policy(text)];
    same(text, answers)
}

/// What both readers say of a record.
pub fn record(text: &[u8]) -> Result<Record, Refusal> {
    let answers = [reading::read_record(text), layouts::read_record(text)];
    same(text, answers)
}

fn same<T: PartialEq + Debug>(text: &[u8], [proved, second]: [T; 2]) -> T {
    assert!(
        proved == second,
        "the proved one says {proved:?}, the second {second:?}, of {}",
        text.escape_ascii()
    );
    proved
}
