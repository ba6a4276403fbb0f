//! Condition rows: their keys, missing ones, and several rows.

use super::matches;
use crate::texts::{context_entry, with_context};

/// A key, its type and its value, spelled as JSON has them between quotes.
pub type Given<'a> = (&'a str, &'a str, &'a str);

/// Fails unless a condition holds for these context entries as expected.
pub fn holds(condition: &str, given: &[Given], expected: bool) {
    let members = format!(r#""Action":"*","Resource":"*","Condition":{condition}"#);
    let entry = |&(key, kind, value): &Given| context_entry(key, kind, value);
    let entries: Vec<_> = given.iter().map(entry).collect();
    matches(&members, &with_context(&entries), expected);
}

/// A missing key holds for no operator and no entry.
#[test]
fn missing_keys() {
    let conditions = [
        r#"{"StringEquals":{"k":"v"}}"#,
        r#"{"StringEquals":{"k":""}}"#,
        r#"{"StringLike":{"k":"*"}}"#,
        r#"{"StringLike":{"k":["","*"]}}"#,
        r#"{"NumericLessThanEquals":{"k":9007199254740991}}"#,
    ];
    let other: &[&[Given]] = &[
        &[],
        &[("l", "string", "v")],
        &[("kk", "string", "v"), ("l", "numeric", "0")],
        &[("k:", "string", "v"), ("-k", "string", "k")],
        &[("v", "string", "k")],
    ];
    for condition in conditions {
        for given in other {
            holds(condition, given, false);
        }
    }
    for condition in &conditions[2..4] {
        holds(condition, &[("k", "string", "")], true);
    }
}

/// Keys are compared without regard to ASCII case, and exactly otherwise.
#[test]
fn keys() {
    for (key, given, expected) in [
        ("k", "k", true),
        ("k", "K", true),
        ("K", "k", true),
        ("aws:TagKeys", "AWS:tAGkEYS", true),
        ("a/Z.9", "A/z.9", true),
        ("azAZ", "AZaz", true),
        (r"\u006b", "K", true),
        ("k", r"\u004b", true),
        ("k", "l", false),
        ("k", "kk", false),
        ("kk", "k", false),
        ("k_", "k-", false),
        ("k.", "k/", false),
        ("k:", "k.", false),
        ("k0", "k1", false),
        ("a:b", "a-b", false),
        ("aws:tag/x", "aws:tag/y", false),
        ("a", "z", false),
    ] {
        let condition = format!(r#"{{"StringEquals":{{"{key}":"v"}}}}"#);
        holds(&condition, &[(given, "string", "v")], expected);
        let others = [
            ("zz", "string", "w"),
            (given, "string", "v"),
            ("n", "numeric", "1"),
        ];
        holds(&condition, &others, expected);
    }
}

#[test]
fn several_rows() {
    let both = r#"{"StringEquals":{"k":"v","l":"w"}}"#;
    let apart =
        r#"{"StringLike":{"k":"v*"},"NumericLessThanEquals":{"n":5},"StringEquals":{"l":"w"}}"#;
    let same = r#"{"StringLike":{"k":"a*"},"StringEquals":{"K":["a*","b"]}}"#;
    let never = r#"{"StringLike":{"k":"*"},"NumericLessThanEquals":{"k":9}}"#;
    let table: [(&str, &[Given], bool); 18] = [
        (both, &[("k", "string", "v"), ("l", "string", "w")], true),
        (both, &[("L", "string", "w"), ("K", "string", "v")], true),
        (both, &[("k", "string", "v"), ("l", "string", "x")], false),
        (both, &[("k", "string", "x"), ("l", "string", "w")], false),
        (both, &[("k", "string", "w"), ("l", "string", "v")], false),
        (both, &[("k", "string", "v")], false),
        (both, &[("l", "string", "w")], false),
        (both, &[], false),
        (
            apart,
            &[
                ("k", "string", "vw"),
                ("l", "string", "w"),
                ("n", "numeric", "5"),
            ],
            true,
        ),
        (
            apart,
            &[
                ("k", "string", "vw"),
                ("l", "string", "w"),
                ("n", "numeric", "6"),
            ],
            false,
        ),
        (
            apart,
            &[
                ("k", "string", "vw"),
                ("l", "string", "w"),
                ("n", "string", "5"),
            ],
            false,
        ),
        (
            apart,
            &[
                ("k", "string", "w"),
                ("l", "string", "w"),
                ("n", "numeric", "5"),
            ],
            false,
        ),
        (
            apart,
            &[
                ("k", "string", "vw"),
                ("l", "string", "v"),
                ("n", "numeric", "5"),
            ],
            false,
        ),
        (same, &[("k", "string", "a*")], true),
        (same, &[("k", "string", "ab")], false),
        (same, &[("k", "string", "b")], false),
        (never, &[("k", "string", "9")], false),
        (never, &[("k", "numeric", "9")], false),
    ];
    for (condition, given, expected) in table {
        holds(condition, given, expected);
    }
}

/// Eight rows, any one of which fails, under a record of sixteen entries.
#[test]
fn a_full_condition() {
    let key = |number: usize| format!("k{number}");
    let rows: Vec<_> = (0..8).map(|n| format!(r#""{}":"{n}*""#, key(n))).collect();
    let condition = format!(r#"{{"StringLike":{{{}}}}}"#, rows.join(","));
    for failing in 0..17 {
        let keys: Vec<_> = (0..16).rev().map(key).collect();
        let value = |n: usize| {
            if n == failing {
                "x".to_owned()
            } else {
                format!("{n}y")
            }
        };
        let values: Vec<_> = (0..16).rev().map(value).collect();
        let pairs = keys.iter().zip(&values);
        let given: Vec<Given> = pairs
            .map(|(key, value)| (&key[..], "string", &value[..]))
            .collect();
        holds(&condition, &given, failing >= 8);
    }
}
