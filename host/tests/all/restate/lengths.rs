//! Results of the most bytes, of one more, and of many more.

use super::{restates, RESULT_BYTES, ROOM, TOO_LONG};
use crate::agree;
use crate::texts::{list_of, statements};

/// A statement with everything that is written, as it is written.
const FULL: &str = r#"{"Sid":"S1","Effect":"Deny","Action":["s3:Get*","s3:P?t"],"Resource":["arn:::::\u00e9${*}*","arn:::::\ud834\udd1e${?}?${$}\"\\"],"Condition":{"StringEquals":{"aws:Tag/x":["*\u000a",""]},"StringLike":{"k":["${*}*"],"l":["\u007f"]},"NumericLessThanEquals":{"n":["0","9007199254740991"]}}}"#;

/// A statement of this many bytes, as it is written.
fn filling(bytes: usize) -> String {
    let frame =
        |entries: &str| format!(r#"{{"Effect":"Allow","Action":["*"],"Resource":["*"{entries}]}}"#);
    let mut entries = String::new();
    let mut left = bytes - frame("").len();
    while left > 0 {
        // Each entry has at least eight characters, a comma and two quotes.
        let length = match left {
            0..=257 => left,
            258..=300 => left / 2,
            _ => 257,
        };
        entries += &format!(r#","arn:::::{}""#, "x".repeat(length - 11));
        left -= length;
    }
    frame(&entries)
}

/// A policy of this many bytes in its written form, with the full statement
/// last or first.
fn policy_of(bytes: usize, full_last: bool) -> String {
    let other = bytes - statements(&[FULL.to_owned(), String::new()]).len();
    let mut all = [filling(other), FULL.to_owned()];
    if !full_last {
        all.reverse();
    }
    let policy = statements(&all);
    assert_eq!(policy.len(), bytes);
    policy
}

#[test]
fn up_to_the_limit() {
    for full_last in [true, false] {
        for bytes in RESULT_BYTES - 20..=RESULT_BYTES {
            let policy = policy_of(bytes, full_last);
            restates(&policy, &policy);
        }
    }
}

/// The limit falls on each byte of the full statement, and behind the policy.
#[test]
fn over_the_limit() {
    for full_last in [true, false] {
        for bytes in RESULT_BYTES + 1..RESULT_BYTES + FULL.len() + 20 {
            let policy = policy_of(bytes, full_last);
            for length in [0, RESULT_BYTES, bytes, ROOM] {
                let found = agree::restate(policy.as_bytes(), length);
                assert_eq!(found, Err(TOO_LONG), "{bytes} into {length}");
            }
        }
    }
}

/// Far more than the limit, from policies that are not too long.
#[test]
fn far_over_the_limit() {
    for (character, written) in [
        ("é", r"\u00e9"),
        ("𝄞", r"\ud834\udd1e"),
        ("\u{7f}", r"\u007f"),
        ("$", "${$}"),
    ] {
        for count in [1, 2, 4, 5, 8, 16] {
            let [policy, expected] = [character, written].map(|part| {
                let entry = format!(r#""arn:::::{}""#, part.repeat(246));
                let list = list_of(&entry, count);
                let statement = format!(r#"{{"Effect":"Deny","Action":["*"],"Resource":{list}}}"#);
                statements(&[statement])
            });
            if expected.len() <= RESULT_BYTES {
                restates(&policy, &expected);
            } else {
                let found = agree::restate(policy.as_bytes(), ROOM);
                assert_eq!(found, Err(TOO_LONG), "{count} of {character}");
            }
        }
    }
}
