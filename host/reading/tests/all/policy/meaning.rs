//! What is read, told by hand.

use crate::agree;
use crate::texts::{quoted, with_action, with_resource, with_row, NUMBERS};
use second::layouts::*;

/// Characters, with the wildcards as `⋆` and `⋄`.
fn text(shown: &str) -> Text {
    let number = |character| match character {
        '⋆' => ANY_RUN,
        '⋄' => ANY_ONE,
        _ => u32::from(character),
    };
    shown.chars().map(number).collect()
}

fn statement(policy: &str) -> Statement {
    let mut policy = agree::policy(policy.as_bytes()).expect("a policy");
    assert_eq!(policy.statements.len(), 1);
    policy.statements.remove(0)
}

/// The text between the quotes, and what it means.
type Meanings = [(&'static str, &'static str)];

/// Where wildcards are: in Resource behind a beginning, and in StringLike.
const WITH_WILDCARDS: &Meanings = &[
    ("", ""),
    ("a", "a"),
    ("*", "⋆"),
    ("?", "⋄"),
    ("a*b?c**", "a⋆b⋄c⋆⋆"),
    (r"\u002a\u003F", "⋆⋄"),
    ("${*}", "*"),
    ("${?}", "?"),
    ("${$}", "$"),
    (r"\u0024\u007b\u002a\u007d", "*"),
    ("$", "$"),
    ("$*", "$⋆"),
    ("$${*}", "$*"),
    ("$$${?}?", "$$?⋄"),
    ("${$}{x}", "${x}"),
    ("${$}${$}{", "$${"),
    ("x${*}*", "x*⋆"),
    ("{*}", "{⋆}"),
    ("é", "é"),
    (r"\u00e9", "é"),
    (r"e\u0301", "e\u{301}"),
    (r"\ud834\udd1e", "𝄞"),
    (r"\uD800\uDC00\udbff\udfff", "\u{10000}\u{10ffff}"),
    ("\u{7f}\u{ffff}", "\u{7f}\u{ffff}"),
    (r"\u0000\b\t\n\f\r", "\0\u{8}\t\n\u{c}\r"),
    (r#"\"\\\/"#, "\"\\/"),
];

#[test]
fn resources() {
    for (spelled, meant) in WITH_WILDCARDS {
        let read = statement(&with_resource(&quoted(&format!("arn:::::{spelled}"))));
        assert_eq!(read.resources, [text(&format!("arn:::::{meant}"))]);
    }
    assert_eq!(statement(&with_resource("\"*\"")).resources, [text("⋆")]);
}

#[test]
fn patterns() {
    for (spelled, meant) in WITH_WILDCARDS {
        let read = statement(&with_row("StringLike", "k", &quoted(spelled)));
        assert_eq!(read.rows[0].entries, [Value::Text(text(meant))]);
    }
}

/// In StringEquals wildcards are plain, and the escapes are what they are.
#[test]
fn plain_texts() {
    let plain = |shown: &str| shown.replace('⋆', "*").replace('⋄', "?");
    for (spelled, meant) in WITH_WILDCARDS {
        let read = statement(&with_row("StringEquals", "k", &quoted(spelled)));
        assert_eq!(read.rows[0].entries, [Value::Text(text(&plain(meant)))]);
    }
}

#[test]
fn actions() {
    let meanings = [
        ("*", "⋆"),
        ("s3:*", "s3:⋆"),
        ("s3:G?t*", "s3:G⋄t⋆"),
        (r"s3\u003aGet\u003f", "s3:Get⋄"),
        ("a-b_c.9:-_.", "a-b_c.9:-_."),
    ];
    for (spelled, meant) in meanings {
        let read = statement(&with_action(&quoted(spelled)));
        assert_eq!(read.actions, [text(meant)]);
    }
}

#[test]
fn numbers() {
    for number in NUMBERS {
        for spelled in [number.to_string(), quoted(&number.to_string())] {
            let read = statement(&with_row("NumericLessThanEquals", "k", &spelled));
            assert_eq!(read.rows[0].entries, [Value::Number(number)]);
        }
    }
}

/// Reading order is statement by statement and, in each, Action, Resource, then
/// the rows as they stand, wherever these members stand.
#[test]
fn reading_order() {
    let policy = r#"{"Statement":[
        {"Condition":{"NumericLessThanEquals":{"n":["9007199254740991",0],"M":7},"StringEquals":{"K":["","*"]}},
         "Resource":["arn:::::a","*"],"Sid":"B1","Action":["s3:b","s3:a"],"Effect":"Deny"},
        {"Action":"*","Effect":"Allow","Resource":"*",
         "Condition":{"StringLike":{"b":"*","a":"?"},"StringEquals":{"b":"x"}}}],
        "Version":"2012-10-17"}"#;
    let row = |operator, key, entries: Vec<Value>| Row {
        operator,
        key: text(key),
        entries,
    };
    let texts = |all: &[&str]| all.iter().map(|one| Value::Text(text(one))).collect();
    let first = Statement {
        sid: Some(text("B1")),
        effect: Effect::Deny,
        actions: vec![text("s3:b"), text("s3:a")],
        resources: vec![text("arn:::::a"), text("⋆")],
        rows: vec![
            row(
                Operator::NumericLessThanEquals,
                "n",
                vec![Value::Number(9_007_199_254_740_991), Value::Number(0)],
            ),
            row(Operator::NumericLessThanEquals, "M", vec![Value::Number(7)]),
            row(Operator::StringEquals, "K", texts(&["", "*"])),
        ],
    };
    let second = Statement {
        sid: None,
        effect: Effect::Allow,
        actions: vec![text("⋆")],
        resources: vec![text("⋆")],
        rows: vec![
            row(Operator::StringLike, "b", texts(&["⋆"])),
            row(Operator::StringLike, "a", texts(&["⋄"])),
            row(Operator::StringEquals, "b", texts(&["x"])),
        ],
    };
    let read = agree::policy(policy.as_bytes()).expect("a policy");
    assert_eq!(read.statements, [first, second]);
}
