//! Refusals in their order, and texts as long as they may be.

use super::{allowed, decides, denied, IMPLICIT};
use crate::agree;
use crate::texts::*;
use second::Refusal;

fn refused(number: u32, place: usize) -> Refusal {
    Refusal { number, place }
}

/// The policy is refused before the record is looked at.
#[test]
fn the_policy_goes_first() {
    let good = policy(ALLOW);
    let policies = [
        (padded(&good, 16_385), Some(refused(2, 0))),
        (" ".repeat(20_000), Some(refused(2, 0))),
        ("{".to_owned(), Some(refused(3, 1))),
        (String::new(), Some(refused(3, 0))),
        ("{}".to_owned(), Some(refused(4, 0))),
        (list_of("[[[[[[[[[[[[[[[[", 1), Some(refused(4, 0))),
        (statements(&vec![ALLOW.to_owned(); 17]), Some(refused(5, 0))),
        (padded(&good, 16_384), None),
        (good, None),
    ];
    let asked = record("");
    let records = [
        (padded(&asked, 8_193), Some(refused(7, 0))),
        (String::new(), Some(refused(8, 0))),
        ("[".to_owned(), Some(refused(8, 1))),
        ("{}x".to_owned(), Some(refused(8, 2))),
        ("{}".to_owned(), Some(refused(9, 0))),
        (r#"{"ActionNames":["*"]}"#.to_owned(), Some(refused(9, 0))),
        (padded(&asked, 8_192), None),
        (asked, None),
    ];
    for (policy, fault) in &policies {
        for (record, other) in &records {
            let found = agree::decide(policy.as_bytes(), record.as_bytes());
            let expected = fault.or(*other).map_or(Ok(allowed(1)), Err);
            assert_eq!(found, expected, "on {policy} and {record}");
        }
    }
}

/// Entries, keys and values of the most characters are compared to the end.
#[test]
fn long_texts() {
    for character in ["x", "é", "𝄞"] {
        let long = |count: usize, end: &str| format!("{}{end}", character.repeat(count));
        for (given, expected) in [
            (long(253, "y"), allowed(1)),
            (long(253, "z"), IMPLICIT),
            (long(253, ""), IMPLICIT),
        ] {
            let value = with_context(&[context_entry("k", "string", &given)]);
            for operator in ["StringEquals", "StringLike"] {
                let entry = quoted(&long(253, "y"));
                decides(&with_row(operator, "k", &entry), &value, expected);
            }
        }
        for (given, expected) in [(long(245, "y"), allowed(1)), (long(245, "z"), IMPLICIT)] {
            let policy = with_resource(&format!("\"arn:::::{}\"", long(245, "y")));
            let record = record(&format!(r#","ResourceArns":["arn:::::{given}"]"#));
            decides(&policy, &record, expected);
        }
    }
    let key = |end: &str| format!("{}{end}", "k".repeat(63));
    for (given, expected) in [("X", allowed(1)), ("y", IMPLICIT), ("", IMPLICIT)] {
        let record = with_context(&[context_entry(&key(given), "numeric", "7")]);
        let policy = with_row("NumericLessThanEquals", &key("x"), "7");
        decides(&policy, &record, expected);
    }
}

/// A policy of sixteen statements and 64 entries, and what decides last.
#[test]
fn a_full_policy() {
    let all: Vec<_> = (1..=16)
        .map(|number| {
            let effect = if number == 16 { "Deny" } else { "Allow" };
            format!(
                r#"{{"Effect":"{effect}","Action":["no:thing","a:b"],"Resource":"*","Condition":{{"NumericLessThanEquals":{{"k":{number}}}}}}}"#
            )
        })
        .collect();
    let policy = statements(&all);
    for value in 0..=20 {
        let record = with_context(&[context_entry("K", "numeric", &value.to_string())]);
        let expected = if value <= 16 { denied(16) } else { IMPLICIT };
        decides(&policy, &record, expected);
        let first = if value <= 15 {
            allowed(value.max(1))
        } else {
            IMPLICIT
        };
        decides(&statements(&all[..15]), &record, first);
    }
}
