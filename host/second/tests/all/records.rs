//! The record layout on both sides.

use crate::common::*;
use second::Outcome::Allowed;

fn assert_numbers(expected: u32, texts: &[String]) {
    for text in texts {
        assert_eq!(record_number(text), expected, "{text}");
    }
}

#[test]
fn accepted() {
    let good = [
        r#"{"ActionNames":["a:b"]}"#,
        r#"{"ActionNames":["a:b"],"ResourceArns":["*"]}"#,
        r#"{"ActionNames":["a:b"],"ResourceArns":["arn:::::"]}"#,
        r#"{"ActionNames":["a:b"],"ResourceArns":["arn:::::*?${x}$"]}"#,
        r#"{"ResourceArns":["\u0061rn:::::\u002a"],"ActionNames":["a\u003ab"]}"#,
        r#"{"ActionNames":["a-b_c.9:-_."],"ContextEntries":[]}"#,
        " {\"ActionNames\":[\"a:b\"]}\r",
    ];
    assert_numbers(0, &good.map(str::to_owned));
    let contexts = [
        vec![context("k", "string", "")],
        vec![context("k", "string", "*?${x}")],
        vec![context("a:B-_/.9", "numeric", "9007199254740991")],
        vec![context("k", "numeric", "0"), context("l", "string", "0")],
        vec![context(r"\u006b", r"\u0073tring", "x")],
        vec![context("k", "numeric", r"\u0037")],
    ];
    assert_numbers(0, &contexts.map(|context| record_with(&context)));
}

#[test]
fn refused_members() {
    let bad = [
        "{}",
        "[]",
        "1",
        r#"{"ActionNames":"a:b"}"#,
        r#"{"ActionNames":[]}"#,
        r#"{"ActionNames":["a:b","a:c"]}"#,
        r#"{"ActionNames":[["a:b"]]}"#,
        r#"{"ActionNames":[1]}"#,
        r#"{"ActionNames":null}"#,
        r#"{"ResourceArns":["*"]}"#,
        r#"{"ActionNames":["a:b"],"ResourceArns":"*"}"#,
        r#"{"ActionNames":["a:b"],"ResourceArns":[]}"#,
        r#"{"ActionNames":["a:b"],"ResourceArns":["*","*"]}"#,
        r#"{"ActionNames":["a:b"],"ResourceArns":null}"#,
        r#"{"ActionNames":["a:b"],"ContextEntries":{}}"#,
        r#"{"ActionNames":["a:b"],"ContextEntries":null}"#,
        r#"{"ActionNames":["a:b"],"ContextEntries":[[]]}"#,
        r#"{"ActionNames":["a:b"],"ContextEntries":[{}]}"#,
        r#"{"ActionNames":["a:b"],"ActionNames":["a:b"]}"#,
        r#"{"ActionNames":["a:b"],"\u0041ctionNames":["a:b"]}"#,
        r#"{"ActionNames":["a:b"],"CallerArn":"x"}"#,
        r#"{"ActionNames":["a:b"],"actionNames":["a:b"]}"#,
        r#"{"ActionNames":["a:b"],"\ud800":1}"#,
    ];
    assert_numbers(9, &bad.map(str::to_owned));
}

#[test]
fn refused_texts() {
    let actions = [
        "",
        "*",
        "a:*",
        "a:b?",
        "a",
        "a:",
        ":b",
        "a:b:c",
        "é:b",
        "a:b c",
        r"a:\ud800",
    ];
    assert_numbers(9, &actions.map(|action| record(action, "*")));
    let resources = [
        "",
        "**",
        "?",
        "arn:",
        "arn::::",
        "ARN:::::",
        "x",
        r"arn:::::\udc00",
        "${*}",
    ];
    assert_numbers(9, &resources.map(|resource| record("a:b", resource)));
}

#[test]
fn refused_context() {
    let bad = [
        vec![context("", "string", "x")],
        vec![context("a b", "string", "x")],
        vec![context("é", "string", "x")],
        vec![context("k", "String", "x")],
        vec![context("k", "stringList", "x")],
        vec![context("k", "date", "x")],
        vec![context("k", "numeric", "x")],
        vec![context("k", "numeric", "")],
        vec![context("k", "numeric", "01")],
        vec![context("k", "numeric", "1.0")],
        vec![context("k", "numeric", "-1")],
        vec![context("k", "numeric", "9007199254740992")],
        vec![context("k", "string", r"\udfff")],
        vec![context("k", "string", "x"), context("k", "string", "x")],
        vec![context("k", "string", "x"), context("K", "numeric", "1")],
    ];
    assert_numbers(9, &bad.map(|context| record_with(&context)));
    let entries = [
        r#"{"ContextKeyName":"k","ContextKeyType":"string"}"#,
        r#"{"ContextKeyName":"k","ContextKeyValues":["x"]}"#,
        r#"{"ContextKeyType":"string","ContextKeyValues":["x"]}"#,
        r#"{"ContextKeyName":"k","ContextKeyType":"string","ContextKeyValues":"x"}"#,
        r#"{"ContextKeyName":"k","ContextKeyType":"string","ContextKeyValues":[]}"#,
        r#"{"ContextKeyName":"k","ContextKeyType":"string","ContextKeyValues":["x","y"]}"#,
        r#"{"ContextKeyName":"k","ContextKeyType":"numeric","ContextKeyValues":[1]}"#,
        r#"{"ContextKeyName":["k"],"ContextKeyType":"string","ContextKeyValues":["x"]}"#,
        r#"{"ContextKeyName":"k","ContextKeyType":["string"],"ContextKeyValues":["x"]}"#,
        r#"{"ContextKeyName":"k","ContextKeyType":"string","ContextKeyValues":["x"],"x":1}"#,
        r#"{"ContextKeyName":"k","ContextKeyType":"string","ContextKeyValues":["x"],"ContextKeyName":"k"}"#,
    ];
    assert_numbers(9, &entries.map(|entry| record_with(&[entry.to_owned()])));
}

#[test]
fn places() {
    let refusal = |text: &[u8]| {
        let everything = allow("\"*\"", "\"*\"");
        second::decide(everything.as_bytes(), text)
            .map_err(|r| (r.number, r.place))
            .err()
    };
    assert_eq!(refusal(b""), Some((8, 0)));
    assert_eq!(refusal(b"\r"), Some((8, 1)));
    assert_eq!(refusal(b"{"), Some((8, 1)));
    assert_eq!(refusal(b"{\"ActionNames\":[\"a:b\"]}x"), Some((8, 23)));
    assert_eq!(refusal(b"[]"), Some((9, 0)));
}

/// Stars, question marks and dollars of a record are plain characters.
#[test]
fn nothing_is_special() {
    let text = allow("\"*\"", r#""arn:::::${*}${$}{*}""#);
    assert_eq!(
        decide(&text, &record("a:b", "arn:::::*${anything}")),
        (Allowed, 1)
    );
    let text = allow("\"*\"", r#""arn:::::${$}{${*}}""#);
    assert_eq!(decide(&text, &record("a:b", "arn:::::${*}")), (Allowed, 1));
}
