//! Restate: what is written, where, and what is refused.

mod characters;
mod edited;
mod forms;
mod generated;
mod lengths;
mod outputs;

use crate::agree;
use crate::texts::policy;
use second::Refusal;

/// No result is longer.
const RESULT_BYTES: usize = 6_144;

/// Room for every result, and more.
const ROOM: usize = 7_000;

const TOO_LONG: Refusal = Refusal {
    number: 11,
    place: 0,
};

const TOO_SHORT: Refusal = Refusal {
    number: 12,
    place: 0,
};

/// Fails unless a policy is restated as expected, into outputs that have just
/// room for it and more, and refused where the output is shorter.
fn restates(policy: &str, expected: &str) {
    let (text, count) = (policy.as_bytes(), expected.len());
    for length in [count, count + 1, ROOM] {
        let found = agree::restate(text, length);
        let found = found.map(|bytes| String::from_utf8(bytes).expect("ASCII"));
        assert_eq!(found.as_deref(), Ok(expected), "{length} for {policy}");
    }
    for length in [count - 1, 1, 0] {
        let found = agree::restate(text, length);
        assert_eq!(found, Err(TOO_SHORT), "{length} for {policy}");
    }
}

/// Fails unless a policy of one statement is restated as expected.
fn restates_statement(statement: &str, expected: &str) {
    let expected = policy(&format!("[{expected}]"));
    restates(&policy(statement), &expected);
    restates(&expected, &expected);
}
