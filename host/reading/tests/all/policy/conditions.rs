//! Conditions: operators, keys and texts.

use crate::tables::{framed, policies, ACCEPTED, POLICY_LAYOUT, POLICY_LIMIT};
use crate::texts::{quoted, with_condition, with_row};

#[test]
fn operators() {
    let table = [
        (r#"{"StringEquals":{"k":"v"}}"#, ACCEPTED),
        (r#"{"StringLike":{"k":"v"}}"#, ACCEPTED),
        (r#"{"NumericLessThanEquals":{"k":"1"}}"#, ACCEPTED),
        (r#"{"\u0053tringLike":{"k":"v"}}"#, ACCEPTED),
        (
            r#"{"StringLike":{"k":"v"},"StringEquals":{"l":"v"}}"#,
            ACCEPTED,
        ),
        (
            r#"{"NumericLessThanEquals":{"k":1},"StringEquals":{"k":"v"},"StringLike":{"k":"v"}}"#,
            ACCEPTED,
        ),
        ("{}", POLICY_LAYOUT),
        ("[]", POLICY_LAYOUT),
        (r#"[{"StringLike":{"k":"v"}}]"#, POLICY_LAYOUT),
        ("null", POLICY_LAYOUT),
        ("true", POLICY_LAYOUT),
        ("0", POLICY_LAYOUT),
        (r#""StringLike""#, POLICY_LAYOUT),
        (r#"{"StringLike":{}}"#, POLICY_LAYOUT),
        (r#"{"StringEquals":{}}"#, POLICY_LAYOUT),
        (r#"{"NumericLessThanEquals":{}}"#, POLICY_LAYOUT),
        (r#"{"StringLike":[]}"#, POLICY_LAYOUT),
        (r#"{"StringLike":["k"]}"#, POLICY_LAYOUT),
        (r#"{"StringLike":"k"}"#, POLICY_LAYOUT),
        (r#"{"StringLike":null}"#, POLICY_LAYOUT),
        (r#"{"StringLike":1}"#, POLICY_LAYOUT),
        (
            r#"{"StringLike":{"k":"v"},"StringEquals":{}}"#,
            POLICY_LAYOUT,
        ),
        (
            r#"{"StringEquals":{},"StringLike":{"k":"v"}}"#,
            POLICY_LAYOUT,
        ),
        (
            r#"{"StringLike":{"k":"v"},"StringLike":{"l":"v"}}"#,
            POLICY_LAYOUT,
        ),
        (
            r#"{"StringLike":{"k":"v"},"\u0053tringLike":{"l":"v"}}"#,
            POLICY_LAYOUT,
        ),
        (
            r#"{"StringLike":{"k":"v"},"StringEquals":{"k":"v"},"StringLike":{"l":"v"}}"#,
            POLICY_LAYOUT,
        ),
        (
            r#"{"NumericLessThanEquals":{"k":1},"NumericLessThanEquals":{"l":1}}"#,
            POLICY_LAYOUT,
        ),
        (r#"{"stringLike":{"k":"v"}}"#, POLICY_LAYOUT),
        (r#"{"STRINGEQUALS":{"k":"v"}}"#, POLICY_LAYOUT),
        (r#"{"StringEqual":{"k":"v"}}"#, POLICY_LAYOUT),
        (r#"{"StringEqualsIgnoreCase":{"k":"v"}}"#, POLICY_LAYOUT),
        (r#"{"StringNotEquals":{"k":"v"}}"#, POLICY_LAYOUT),
        (r#"{"StringLikeIfExists":{"k":"v"}}"#, POLICY_LAYOUT),
        (r#"{"ForAnyValue:StringLike":{"k":"v"}}"#, POLICY_LAYOUT),
        (r#"{"NumericLessThan":{"k":1}}"#, POLICY_LAYOUT),
        (r#"{"NumericEquals":{"k":1}}"#, POLICY_LAYOUT),
        (r#"{"Bool":{"k":"true"}}"#, POLICY_LAYOUT),
        (r#"{"Null":{"k":"true"}}"#, POLICY_LAYOUT),
        (r#"{"":{"k":"v"}}"#, POLICY_LAYOUT),
        (r#"{"k":"v"}"#, POLICY_LAYOUT),
        (r#"{"StringLike":{"k":"v"},"x":1}"#, POLICY_LAYOUT),
        (r#"{"StringLike\ud800":{"k":"v"}}"#, POLICY_LAYOUT),
        (r#"{"StringLike":{"k":{"v":"v"}}}"#, POLICY_LAYOUT),
    ];
    policies(framed(with_condition, &table));
}

#[test]
fn keys() {
    let table = [
        ("k", ACCEPTED),
        ("aws:Tag/x", ACCEPTED),
        ("a:B-c_D/e.9", ACCEPTED),
        (":", ACCEPTED),
        ("-", ACCEPTED),
        ("_", ACCEPTED),
        ("/", ACCEPTED),
        (".", ACCEPTED),
        ("0", ACCEPTED),
        (r"\u006b", ACCEPTED),
        (r"\/", ACCEPTED),
        ("", POLICY_LAYOUT),
        (" ", POLICY_LAYOUT),
        ("a b", POLICY_LAYOUT),
        ("k ", POLICY_LAYOUT),
        ("é", POLICY_LAYOUT),
        (r"\u016b", POLICY_LAYOUT),
        (r"\u212a", POLICY_LAYOUT),
        (r"\ud834\udd1e", POLICY_LAYOUT),
        ("k*", POLICY_LAYOUT),
        ("k?", POLICY_LAYOUT),
        ("$", POLICY_LAYOUT),
        ("${*}", POLICY_LAYOUT),
        (r"k\ud800", POLICY_LAYOUT),
        (r"\udc00k", POLICY_LAYOUT),
    ];
    for (operator, value) in [
        ("StringEquals", "\"v\""),
        ("StringLike", "\"v\""),
        ("NumericLessThanEquals", "1"),
    ] {
        policies(framed(|key: &str| with_row(operator, key, value), &table));
    }
}

/// Every ASCII character, spelled by its number, in a key.
#[test]
fn characters_of_keys() {
    for byte in 0..=0x7F_u8 {
        let legal = byte.is_ascii_alphanumeric() || b":-_/.".contains(&byte);
        let expected = if legal { ACCEPTED } else { POLICY_LAYOUT };
        let key = format!("k\\u{byte:04x}");
        policies([(with_row("StringLike", &key, "\"v\""), expected)]);
    }
}

/// Equal but for ASCII case is a repeat, within one operator.
#[test]
fn repeated_keys() {
    let frame = |keys: &[&str]| {
        let rows: Vec<_> = keys.iter().map(|key| format!(r#""{key}":"v""#)).collect();
        with_condition(&format!(r#"{{"StringLike":{{{}}}}}"#, rows.join(",")))
    };
    let table: [(&[&str], _); 17] = [
        (&["k", "l"], ACCEPTED),
        (&["k", "kk"], ACCEPTED),
        (&["kk", "k"], ACCEPTED),
        (&["k-", "k_", "k.", "k/", "k:"], ACCEPTED),
        (&["0", "1"], ACCEPTED),
        (&["a/0", "a/P"], ACCEPTED),
        (&["k", "k"], POLICY_LAYOUT),
        (&["k", "K"], POLICY_LAYOUT),
        (&["K", "k"], POLICY_LAYOUT),
        (&["k", r"\u006b"], POLICY_LAYOUT),
        (&["k", r"\u004b"], POLICY_LAYOUT),
        (&["aws:TagKeys", "AWS:tAGkEYS"], POLICY_LAYOUT),
        (&["a/Z.9", "A/z.9"], POLICY_LAYOUT),
        (&["k", "l", "K"], POLICY_LAYOUT),
        (&["l", "k", "m", "k"], POLICY_LAYOUT),
        (&["a", "b", "c", "d", "e", "f", "g", "A"], POLICY_LAYOUT),
        (&["1", "1"], POLICY_LAYOUT),
    ];
    policies(framed(frame, &table));
    let other = r#"{"StringLike":{"k":"v"},"StringEquals":{"k":"v","K":"v"}}"#;
    let both = r#"{"StringLike":{"k":"v"},"StringEquals":{"K":"v"}}"#;
    policies([
        (with_condition(both), ACCEPTED),
        (with_condition(other), POLICY_LAYOUT),
    ]);
}

/// The length of a key is a limit, its form is not.
#[test]
fn lengths_of_keys() {
    let frame = |(part, count, end): (&str, usize, &str)| {
        with_row(
            "StringEquals",
            &format!("{}{end}", part.repeat(count)),
            "\"v\"",
        )
    };
    let table = [
        (("k", 64, ""), ACCEPTED),
        (("k", 65, ""), POLICY_LIMIT),
        (("k", 300, ""), POLICY_LIMIT),
        ((r"\u006b", 64, ""), ACCEPTED),
        ((r"\u006b", 65, ""), POLICY_LIMIT),
        (("k", 63, "é"), POLICY_LAYOUT),
        (("k", 64, "é"), POLICY_LAYOUT),
        (("k", 64, r"\ud800"), POLICY_LAYOUT),
    ];
    policies(framed(frame, &table));
}

#[test]
fn texts() {
    let table = [
        ("", ACCEPTED),
        (" ", ACCEPTED),
        ("v", ACCEPTED),
        ("*", ACCEPTED),
        ("**", ACCEPTED),
        ("?*?", ACCEPTED),
        ("é", ACCEPTED),
        ("語𝄞", ACCEPTED),
        (r"\u0000", ACCEPTED),
        (r"\ud834\udd1e", ACCEPTED),
        (r"\uD800\uDC00\uDBFF\uDFFF", ACCEPTED),
        (r#"\"\\\/\b\f\n\r\t"#, ACCEPTED),
        ("\u{7f}\u{80}\u{ffff}", ACCEPTED),
        (r"\ud800", POLICY_LAYOUT),
        (r"\udfff", POLICY_LAYOUT),
        (r"\udbff\ue000", POLICY_LAYOUT),
        (r"\ud800\ud800\udc00", POLICY_LAYOUT),
        (r"\ud800\udc00\udc00", POLICY_LAYOUT),
        (r"\ud834\n\udd1e", POLICY_LAYOUT),
        (r"\ud834\\udd1e", POLICY_LAYOUT),
    ];
    for operator in ["StringEquals", "StringLike"] {
        policies(framed(
            |text: &str| with_row(operator, "k", &quoted(text)),
            &table,
        ));
        let list = |text: &str| with_row(operator, "k", &format!(r#"["","{text}"]"#));
        policies(framed(list, &table));
    }
}
