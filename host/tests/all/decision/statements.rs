//! Which statement decides: the first Deny that matches, else the first Allow.

use super::{allowed, decides, denied, every, matches, IMPLICIT};
use crate::texts::{context_entry, policy, record, statements, with_context};
use second::Decision;

/// Members of statements that match the record below, and of some that do not:
/// by the action, by the resource, by a row.
const MATCHING: [&str; 2] = [
    r#""Action":"*","Resource":"*""#,
    r#""Action":["x:y","a:?"],"Resource":["arn:::::","*"],"Condition":{"StringEquals":{"k":"v"}}"#,
];
const OTHERS: [&str; 3] = [
    r#""Action":["a:c","b:b"],"Resource":"*""#,
    r#""Action":"*","Resource":"arn:::::*""#,
    r#""Action":"*","Resource":"*","Condition":{"StringEquals":{"k":"w"}}"#,
];

fn asked() -> String {
    with_context(&[context_entry("k", "string", "v")])
}

/// A and D are an Allow and a Deny that match, a and d some that do not.
fn statement(letter: char, variant: usize) -> String {
    let (effect, members) = match letter {
        'A' => ("Allow", &MATCHING[..]),
        'D' => ("Deny", &MATCHING[..]),
        'a' => ("Allow", &OTHERS[..]),
        _ => ("Deny", &OTHERS[..]),
    };
    let members = members[variant % members.len()];
    format!(r#"{{"Effect":"{effect}",{members}}}"#)
}

fn check(letters: &str, expected: Decision) {
    for variant in 0..6 {
        let numbered = letters.chars().enumerate();
        let all: Vec<_> = numbered
            .map(|(number, letter)| statement(letter, number + variant))
            .collect();
        decides(&statements(&all), &asked(), expected);
        if let [only] = &all[..] {
            decides(&policy(only), &asked(), expected);
        }
    }
}

#[test]
fn the_statement_that_decides() {
    for (letters, expected) in [
        ("A", allowed(1)),
        ("D", denied(1)),
        ("a", IMPLICIT),
        ("d", IMPLICIT),
        ("AD", denied(2)),
        ("DA", denied(1)),
        ("AA", allowed(1)),
        ("DD", denied(1)),
        ("aA", allowed(2)),
        ("Aa", allowed(1)),
        ("dA", allowed(2)),
        ("Ad", allowed(1)),
        ("dD", denied(2)),
        ("aD", denied(2)),
        ("ad", IMPLICIT),
        ("ADD", denied(2)),
        ("AAD", denied(3)),
        ("ADA", denied(2)),
        ("AdA", allowed(1)),
        ("adA", allowed(3)),
        ("aaddaA", allowed(6)),
        ("aAdAaA", allowed(2)),
        ("AdAdAD", denied(6)),
        ("dadadada", IMPLICIT),
        ("aaaaaaaaaaaaaaaA", allowed(16)),
        ("AAAAAAAAAAAAAAAD", denied(16)),
        ("dddddddddddddddD", denied(16)),
        ("AAAAAAAAAAAAAAAd", allowed(1)),
        ("adadadadadadadad", IMPLICIT),
    ] {
        check(letters, expected);
    }
}

/// Every policy of up to five statements.
#[test]
fn every_short_policy() {
    for letters in &every("ADad", 5)[1..] {
        let first = |wanted| letters.find(wanted).map(|place| place as u32 + 1);
        let expected = match (first('D'), first('A')) {
            (Some(deny), _) => denied(deny),
            (None, Some(allow)) => allowed(allow),
            (None, None) => IMPLICIT,
        };
        check(letters, expected);
    }
}

/// Some action, some resource and every row: each alone can fail.
#[test]
fn every_part_has_to_match() {
    for action in [true, false] {
        for resource in [true, false] {
            for row in [true, false] {
                let name = if action { "a:b" } else { "a:c" };
                let arn = if resource { "*" } else { "arn:::::" };
                let value = if row { "v" } else { "w" };
                let members = format!(
                    r#""Action":"{name}","Resource":"{arn}","Condition":{{"StringLike":{{"k":"{value}"}}}}"#
                );
                matches(&members, &asked(), action && resource && row);
            }
        }
    }
}

/// Members stand in any order, and a Sid says nothing.
#[test]
fn order_of_members() {
    for members in [
        r#""Sid":"Deny","Action":"*","Resource":"*""#,
        r#""Resource":"*","Action":"*","Sid":"Allow""#,
        r#""Condition":{"StringLike":{"k":"v"}},"Resource":"*","Action":"a:b""#,
    ] {
        matches(members, &asked(), true);
    }
    let swapped = r#"{"Statement":{"Resource":"*","Action":"*","Effect":"\u0044eny"},"Version":"2012-10-17"}"#;
    decides(swapped, &record(""), denied(1));
}
