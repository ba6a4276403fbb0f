//! Each limit of texts on both sides; those of results are tried by `trials`.

use crate::common::*;

/// The spellings in which texts are brought to a length in characters.
const SPELLINGS: [&str; 5] = ["x", r"\u0078", "é", "𝄞", r"\ud834\udd1e"];

#[test]
fn policy_bytes() {
    let text = allow("\"*\"", "\"*\"");
    assert_eq!(policy_number(padded(&text, 16_384)), 0);
    assert_eq!(policy_number(padded(&text, 16_385)), 2);
    assert_eq!(policy_number(vec![b'['; 16_385]), 2);
    assert_eq!(policy_number(vec![0xFF; 16_385]), 2);
    let broken = second::restate(&padded("{", 16_384), &mut []).unwrap_err();
    assert_eq!((broken.number, broken.place), (3, 16_384));
}

#[test]
fn record_bytes() {
    let text = record("a:b", "*");
    assert_eq!(record_number(padded(&text, 8_192)), 0);
    assert_eq!(record_number(padded(&text, 8_193)), 7);
    assert_eq!(record_number(vec![0xFF; 8_193]), 7);
    assert_eq!(record_number(vec![0xFF; 8_192]), 8);
}

#[test]
fn statements() {
    let one = statement("Allow", "\"*\"", "\"*\"");
    assert_eq!(policy_number(policy(&vec![one.clone(); 16])), 0);
    assert_eq!(policy_number(policy(&vec![one; 17])), 5);
}

#[test]
fn entries() {
    let list = |count: usize| format!("[{}]", vec!["\"*\""; count].join(","));
    assert_eq!(policy_number(allow(&list(63), &list(1))), 0);
    assert_eq!(policy_number(allow(&list(32), &list(33))), 5);
    let numbers = |count: usize| {
        let numbers = vec!["7"; count].join(",");
        allow_if(&format!(
            r#"{{"NumericLessThanEquals":{{"k":[{numbers}]}}}}"#
        ))
    };
    assert_eq!(policy_number(numbers(62)), 0);
    assert_eq!(policy_number(numbers(63)), 5);
    let over_two = |more: usize| {
        let denied = statement("Deny", &list(31), &list(1 + more));
        policy(&[statement("Allow", &list(31), &list(1)), denied])
    };
    assert_eq!(policy_number(over_two(0)), 0);
    assert_eq!(policy_number(over_two(1)), 5);
}

#[test]
fn condition_rows() {
    let keys = |range: std::ops::Range<usize>| {
        let rows: Vec<String> = range.map(|key| format!(r#""k{key}":"a""#)).collect();
        rows.join(",")
    };
    let split = |count: usize| {
        let (like, equals) = (keys(0..3), keys(3..count));
        format!(r#"{{"StringLike":{{{like}}},"StringEquals":{{{equals}}}}}"#)
    };
    assert_eq!(policy_number(allow_if(&split(8))), 0);
    assert_eq!(policy_number(allow_if(&split(9))), 5);
    let eight = allow_if(&split(8));
    let inner = &eight[eight.find("[{").unwrap() + 1..eight.len() - 2];
    assert_eq!(
        policy_number(policy(&[inner.to_owned(), inner.to_owned()])),
        0
    );
}

#[test]
fn entry_characters_of_actions() {
    let action = |length: usize, last: &str| {
        let name = "x".repeat(length - 2 - last.len());
        allow(&format!("\"a:{name}{last}\""), "\"*\"")
    };
    for last in ["", "*", "?*"] {
        assert_eq!(policy_number(action(254, last)), 0, "{last}");
        assert_eq!(policy_number(action(255, last)), 5, "{last}");
    }
    let escaped = |length: usize| format!("\"a:{}\"", r"\u0078".repeat(length - 2));
    assert_eq!(policy_number(allow(&escaped(254), "\"*\"")), 0);
    assert_eq!(policy_number(allow(&escaped(255), "\"*\"")), 5);
}

#[test]
fn entry_characters_of_resources_and_conditions() {
    let counted_once = ["*", "?", "${*}", "${?}", "${$}", r"\u0024{*}", "$"];
    for spelling in SPELLINGS.iter().chain(&counted_once) {
        let resource = |length: usize| format!("\"arn:::::{}\"", spelling.repeat(length - 8));
        assert_eq!(
            policy_number(allow("\"*\"", &resource(254))),
            0,
            "{spelling}"
        );
        assert_eq!(
            policy_number(allow("\"*\"", &resource(255))),
            5,
            "{spelling}"
        );
        for operator in ["StringLike", "StringEquals"] {
            let value = |length: usize| {
                let value = spelling.repeat(length);
                allow_if(&format!(r#"{{"{operator}":{{"k":["{value}"]}}}}"#))
            };
            assert_eq!(policy_number(value(254)), 0, "{operator} {spelling}");
            assert_eq!(policy_number(value(255)), 5, "{operator} {spelling}");
        }
    }
}

#[test]
fn key_characters() {
    for spelling in ["k", r"\u006b"] {
        let key = |length: usize| spelling.repeat(length);
        let text =
            |length: usize| allow_if(&format!(r#"{{"StringLike":{{"{}":"a"}}}}"#, key(length)));
        assert_eq!(policy_number(text(64)), 0);
        assert_eq!(policy_number(text(65)), 5);
        let record = |length: usize| record_with(&[context(&key(length), "string", "a")]);
        assert_eq!(record_number(record(64)), 0);
        assert_eq!(record_number(record(65)), 9);
    }
}

/// A Sid that is too long is against the layout, not over a limit.
#[test]
fn sid_characters() {
    let sid = |length: usize| {
        let sid = "s".repeat(length);
        policy(&[format!(
            r#"{{"Sid":"{sid}","Effect":"Allow","Action":"*","Resource":"*"}}"#
        )])
    };
    assert_eq!(policy_number(sid(64)), 0);
    assert_eq!(policy_number(sid(65)), 4);
    assert_eq!(policy_number(sid(0)), 4);
}

#[test]
fn context_entries() {
    let record = |count: usize| {
        let entries: Vec<String> = (0..count)
            .map(|n| context(&format!("k{n}"), "string", "v"))
            .collect();
        record_with(&entries)
    };
    assert_eq!(record_number(record(16)), 0);
    assert_eq!(record_number(record(17)), 9);
}

#[test]
fn record_characters() {
    let action = |length: usize| record(&format!("a:{}", "b".repeat(length - 2)), "*");
    assert_eq!(record_number(action(254)), 0);
    assert_eq!(record_number(action(255)), 9);
    for spelling in SPELLINGS.iter().chain(&["*", "?", "$"]) {
        let resource =
            |length: usize| record("a:b", &format!("arn:::::{}", spelling.repeat(length - 8)));
        assert_eq!(record_number(resource(254)), 0, "{spelling}");
        assert_eq!(record_number(resource(255)), 9, "{spelling}");
        let value =
            |length: usize| record_with(&[context("k", "string", &spelling.repeat(length))]);
        assert_eq!(record_number(value(254)), 0, "{spelling}");
        assert_eq!(record_number(value(255)), 9, "{spelling}");
    }
    // In a record the three escapes are four characters each.
    let escapes = |count: usize| record("a:b", &format!("arn:::::xx{}", "${*}".repeat(count)));
    assert_eq!(record_number(escapes(61)), 0);
    assert_eq!(record_number(escapes(62)), 9);
}

/// Depth is refused as layout, a break before it as a break.
#[test]
fn levels() {
    let deep = |depth: usize| "[".repeat(depth) + &"]".repeat(depth);
    let inside = |depth: usize| format!(r#"{{"x":{}}}"#, deep(depth - 1));
    for depth in [16, 17] {
        assert_eq!(policy_number(inside(depth)), 4);
        assert_eq!(record_number(inside(depth)), 9);
        assert_eq!(policy_number(deep(depth)), 4);
    }
    let cut = |depth: usize| "[".repeat(depth);
    assert_eq!((policy_number(cut(16)), record_number(cut(16))), (3, 8));
    assert_eq!((policy_number(cut(17)), record_number(cut(17))), (4, 9));
    let broken_before = format!("[}}{}", cut(17));
    assert_eq!(
        (policy_number(&broken_before), record_number(&broken_before)),
        (3, 8)
    );
    let broken_behind = format!("{}}}", cut(17));
    assert_eq!(
        (policy_number(&broken_behind), record_number(&broken_behind)),
        (4, 9)
    );
}
