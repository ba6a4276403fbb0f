//! The policy layout on both sides, the decision and the written form.

use crate::common::*;
use second::Outcome::{Allowed, ExplicitlyDenied, ImplicitlyDenied};

const ALLOW: &str = r#"{"Effect":"Allow","Action":"*","Resource":"*"}"#;

fn with_version(version: &str) -> String {
    format!(r#"{{"Version":{version},"Statement":{ALLOW}}}"#)
}

fn with_statement(statement: &str) -> String {
    format!(r#"{{"Version":"2012-10-17","Statement":{statement}}}"#)
}

fn assert_numbers(expected: u32, texts: &[String]) {
    for text in texts {
        assert_eq!(policy_number(text), expected, "{text}");
    }
}

#[test]
fn outermost() {
    let good = [
        with_version(r#""2012-10-17""#),
        with_version(r#""2012\u002d10-17""#),
        with_statement(&format!("[{ALLOW}]")),
        format!(r#"{{"\u0053tatement":{ALLOW},"Version":"2012-10-17"}}"#),
        format!(" {} \n", with_statement(ALLOW)),
    ];
    assert_numbers(0, &good);
    let bad = [
        with_version(r#""2008-10-17""#),
        with_version("20121017"),
        with_version(r#"["2012-10-17"]"#),
        with_statement("[]"),
        with_statement("null"),
        with_statement(&format!("[[{ALLOW}]]")),
        with_statement(&format!("[{ALLOW},1]")),
        r#"{"Version":"2012-10-17"}"#.to_owned(),
        format!(r#"{{"Statement":{ALLOW}}}"#),
        format!(r#"{{"Version":"2012-10-17","Statement":{ALLOW},"Id":"x"}}"#),
        format!(r#"{{"Version":"2012-10-17","Statement":{ALLOW},"Version":"2012-10-17"}}"#),
        format!(r#"{{"Version":"2012-10-17","Statement":{ALLOW},"\u0056ersion":"2012-10-17"}}"#),
        format!(r#"{{"version":"2012-10-17","Statement":{ALLOW}}}"#),
        format!(r#"{{"Version":"2012-10-17","Statement":{ALLOW},"\ud800":1}}"#),
        format!("[{}]", with_statement(ALLOW)),
        "7".to_owned(),
        "\"x\"".to_owned(),
        "{}".to_owned(),
    ];
    assert_numbers(4, &bad);
}

#[test]
fn statements() {
    let bad = [
        r#"{"Effect":"allow","Action":"*","Resource":"*"}"#,
        r#"{"Effect":["Allow"],"Action":"*","Resource":"*"}"#,
        r#"{"Action":"*","Resource":"*"}"#,
        r#"{"Effect":"Allow","Resource":"*"}"#,
        r#"{"Effect":"Allow","Action":"*"}"#,
        r#"{"Effect":"Allow","Action":"*","Resource":"*","NotAction":"*"}"#,
        r#"{"Effect":"Allow","Action":"*","Resource":"*","Principal":"*"}"#,
        r#"{"Effect":"Allow","Effect":"Allow","Action":"*","Resource":"*"}"#,
        r#"{"Effect":"Allow","Action":[],"Resource":"*"}"#,
        r#"{"Effect":"Allow","Action":"*","Resource":[]}"#,
        r#"{"Effect":"Allow","Action":[["*"]],"Resource":"*"}"#,
        r#"{"Effect":"Allow","Action":7,"Resource":"*"}"#,
        r#"{"Effect":"Allow","Action":{"a":1},"Resource":"*"}"#,
        r#"{"Effect":"Allow","Action":["*",null],"Resource":"*"}"#,
        r#"{"Effect":"Allow","Action":"*","Resource":"*","Condition":{}}"#,
        r#"{"Effect":"Allow","Action":"*","Resource":"*","Condition":[]}"#,
    ];
    assert_numbers(4, &bad.map(with_statement));
    let good = r#"{"Condition":{"StringLike":{"k":"v"}},"Sid":"a","Resource":"*","Action":"*","Effect":"\u0044eny"}"#;
    assert_eq!(policy_number(with_statement(good)), 0);
}

#[test]
fn sids() {
    let sid = |sid: &str| {
        statement("Allow", "\"*\"", "\"*\"").replacen('{', &format!("{{\"Sid\":{sid},"), 1)
    };
    let pair = |one: &str, other: &str| policy(&[sid(one), sid(other)]);
    assert_numbers(
        0,
        &[
            pair("\"a\"", "\"A\""),
            pair("\"a\"", "\"aa\""),
            pair("\"0\"", "\"\\u0031\""),
        ],
    );
    assert_numbers(4, &[pair("\"a\"", "\"a\""), pair("\"a\"", "\"\\u0061\"")]);
    let bad = [
        "\"\"",
        "\"a-b\"",
        "\"a b\"",
        "\"é\"",
        "7",
        "null",
        "[\"a\"]",
        "\"\\ud800\"",
    ];
    assert_numbers(4, &bad.map(|bad| policy(&[sid(bad)])));
}

#[test]
fn actions() {
    let good = [
        "*",
        "s3:*",
        "s3:?",
        "s3:Get*",
        "s3:**",
        "s3:*Get?x*",
        "a:b",
        "a-b_c.9:-_.",
        r"s3\u003aGet",
        r"\u002a",
    ];
    assert_numbers(
        0,
        &good.map(|entry| allow(&format!("\"{entry}\""), "\"*\"")),
    );
    let bad = [
        "",
        "**",
        "?",
        "s3",
        "s3*",
        ":Get",
        "s3:",
        "s3:Get:x",
        "s*:Get",
        "s?:Get",
        "*:*",
        "s3:Gét",
        "s3:Get Object",
        "s3:${*}",
        "s3:$",
        "s3/x:Get",
        "s3:Get\\n",
        "s3:\\ud800",
    ];
    assert_numbers(4, &bad.map(|entry| allow(&format!("\"{entry}\""), "\"*\"")));
}

#[test]
fn resources() {
    let good = [
        "*",
        "arn:::::",
        "arn:aws:s3:::gate/*",
        "arn:*:?:::",
        "arn:::::${*}${?}${$}",
        "arn:::::$",
        "arn:::::$x{*}",
        "arn:::::a:b:c",
        "arn:::::$${*}",
        "arn:::::${$}{x}",
        r"\u0061rn:::::",
        r"arn:::::\u0024{*}",
        "arn:::::é語",
    ];
    assert_numbers(
        0,
        &good.map(|entry| allow("\"*\"", &format!("\"{entry}\""))),
    );
    let bad = [
        "",
        "**",
        "?",
        "${*}",
        "arn:",
        "arn::::",
        "arn:*",
        "ARN:::::",
        "a${*}n:::::",
        "?rn:::::",
        "*arn:::::",
        "arn:::::${x}",
        "arn:::::${",
        "arn:::::${*",
        "arn:::::${*x}",
        "arn:::::${}",
        "arn:::::${aws:username}",
        "arn:::::$${x}",
        "arn:::::${**}",
        r"arn:::::\u0024\u007bx}",
        "arn:::::\\udc00",
    ];
    assert_numbers(4, &bad.map(|entry| allow("\"*\"", &format!("\"{entry}\""))));
}

#[test]
fn conditions() {
    let good = [
        r#"{"StringEquals":{"k":""}}"#,
        r#"{"StringLike":{"aws:Tag/a-b_c.9":["",  "*"]}}"#,
        r#"{"NumericLessThanEquals":{"k":[0,"0",10,"10",9007199254740991,"9007199254740991"]}}"#,
        r#"{"StringLike":{"k":"a"},"StringEquals":{"K":"a"}}"#,
        r#"{"StringEquals":{"k":"${*}${?}${$}$*?"}}"#,
        r#"{"\u0053tringLike":{"\u006b":"a"}}"#,
        r#"{"NumericLessThanEquals":{"k":"\u0037"}}"#,
    ];
    assert_numbers(0, &good.map(allow_if));
    let bad = [
        r#"{"StringEquals":{}}"#,
        r#"{"StringEquals":{"k":[]}}"#,
        r#"{"StringEquals":{"k":{}}}"#,
        r#"{"StringEquals":["k"]}"#,
        r#"{"StringEquals":{"":"a"}}"#,
        r#"{"StringEquals":{"a b":"a"}}"#,
        r#"{"StringEquals":{"é":"a"}}"#,
        r#"{"StringEquals":{"k":"a","k":"b"}}"#,
        r#"{"StringEquals":{"k":"a","K":"b"}}"#,
        r#"{"StringEquals":{"k":"a"},"StringEquals":{"l":"b"}}"#,
        r#"{"stringEquals":{"k":"a"}}"#,
        r#"{"StringNotEquals":{"k":"a"}}"#,
        r#"{"StringEqualsIfExists":{"k":"a"}}"#,
        r#"{"StringEquals":{"k":7}}"#,
        r#"{"StringLike":{"k":true}}"#,
        r#"{"StringLike":{"k":["a",null]}}"#,
        r#"{"StringEquals":{"k":"${x}"}}"#,
        r#"{"StringLike":{"k":"${aws:username}"}}"#,
        r#"{"StringLike":{"k":"\ud800"}}"#,
        r#"{"StringLike":{"\ud800":"a"}}"#,
        r#"{"StringEquals":{"k":"a"},"StringLike":{}}"#,
    ];
    assert_numbers(4, &bad.map(allow_if));
}

#[test]
fn numbers() {
    let value = |value: &str| allow_if(&format!(r#"{{"NumericLessThanEquals":{{"k":{value}}}}}"#));
    let bad = [
        "1.0",
        "1e2",
        "-0",
        "-1",
        "9007199254740992",
        "\"9007199254740992\"",
        "\"01\"",
        "\"00\"",
        "\"\"",
        "\" 1\"",
        "\"1 \"",
        "\"+1\"",
        "\"-0\"",
        "\"1.0\"",
        "\"1e2\"",
        "\"x\"",
        "\"٣\"",
        "99999999999999999999999999",
        "\"18446744073709551617\"",
        "true",
        "null",
        "{}",
        "[[1]]",
    ];
    assert_numbers(4, &bad.map(value));
    let good = [
        "0",
        "\"0\"",
        "9007199254740991",
        "\"9007199254740991\"",
        "[1,\"2\"]",
    ];
    assert_numbers(0, &good.map(value));
}

/// The first matching Deny decides, else the first matching Allow.
#[test]
fn deciding_statement() {
    let text = policy(&[
        statement("Allow", "\"s3:Put*\"", "\"*\""),
        statement("Allow", "\"s3:*\"", "\"arn:aws:s3:::gate/*\""),
        statement("Deny", "\"s3:Delete*\"", "\"*\""),
        statement("Deny", "\"s3:*\"", "\"arn:aws:s3:::gate/secret\""),
        statement("Allow", "\"*\"", "\"arn:aws:s3:::gate/n\""),
    ]);
    let gate = |rest: &str| format!("arn:aws:s3:::gate/{rest}");
    let cases = [
        ("s3:PutObject", gate("a"), (Allowed, 1)),
        ("s3:GetObject", gate("a"), (Allowed, 2)),
        ("s3:GetObject", gate("n"), (Allowed, 2)),
        ("sqs:Get", gate("n"), (Allowed, 5)),
        ("sqs:Get", gate("m"), (ImplicitlyDenied, 0)),
        ("s3:DeleteObject", gate("secret"), (ExplicitlyDenied, 3)),
        ("s3:GetObject", gate("secret"), (ExplicitlyDenied, 4)),
        ("s3:getObject", gate(""), (Allowed, 2)),
        ("S3:GetObject", gate(""), (ImplicitlyDenied, 0)),
        ("s3:GetObject", "*".to_owned(), (ImplicitlyDenied, 0)),
    ];
    for (action, resource, expected) in cases {
        assert_eq!(
            decide(&text, &record(action, &resource)),
            expected,
            "{action} {resource}"
        );
    }
}

#[test]
fn wildcards() {
    let cases = [
        ("*", "", true),
        ("a*", "a", true),
        ("a*", "ab:c/d", true),
        ("a*", "ba", false),
        ("?", "", false),
        ("?", "é", true),
        ("?", "𝄞", true),
        ("?", "e\u{301}", false),
        ("é", "e\u{301}", false),
        ("a?c", "abc", true),
        ("a?c", "ac", false),
        ("*a*b", "xaxbxab", true),
        ("*a*b", "xaxbxa", false),
        ("a**b", "ab", true),
        ("*?*", "", false),
        ("*?*", "x", true),
        ("?*?", "x", false),
        ("a${*}b", "a*b", true),
        ("a${*}b", "aXb", false),
        ("a${?}", "a?", true),
        ("a${?}", "ab", false),
        ("${$}{x}", "${x}", true),
        ("$${*}", "$*", true),
        ("$x", "$x", true),
        ("*${*}", "ab*", true),
        ("*${*}", "ab", false),
    ];
    for (entry, value, expected) in cases {
        let text = allow_if(&format!(r#"{{"StringLike":{{"k":"{entry}"}}}}"#));
        let record = record_with(&[context("k", "string", value)]);
        let expected = if expected {
            (Allowed, 1)
        } else {
            (ImplicitlyDenied, 0)
        };
        assert_eq!(decide(&text, &record), expected, "{entry} on {value}");
    }
}

/// Thirty stars against a text that just fails: quick, or this test hangs.
#[test]
fn many_stars_are_quick() {
    let entry = "*a".repeat(126);
    let text = allow_if(&format!(r#"{{"StringLike":{{"k":"{entry}b"}}}}"#));
    let record = record_with(&[context("k", "string", &"a".repeat(254))]);
    assert_eq!(decide(&text, &record), (ImplicitlyDenied, 0));
}

#[test]
fn rows_hold_by_key_type_and_entry() {
    let text = allow_if(
        r#"{"StringEquals":{"aws:K":["a*","b"]},"NumericLessThanEquals":{"n":["10",20]}}"#,
    );
    let both = |key: &str, value: &str, number: &str| {
        record_with(&[
            context(key, "string", value),
            context("N", "numeric", number),
        ])
    };
    let yes = [
        both("aws:k", "a*", "20"),
        both("AWS:K", "b", "0"),
        both("aws:K", "b", "15"),
    ];
    for record in &yes {
        assert_eq!(decide(&text, record), (Allowed, 1), "{record}");
    }
    let no = [
        both("aws:k", "ab", "20"),
        both("aws:k", "a*", "21"),
        both("aws:kk", "a*", "20"),
        record_with(&[context("aws:k", "string", "b")]),
        record_with(&[context("n", "numeric", "1")]),
        record_with(&[]),
        record_with(&[context("aws:k", "string", "b"), context("n", "string", "1")]),
    ];
    for record in &no {
        assert_eq!(decide(&text, record), (ImplicitlyDenied, 0), "{record}");
    }
    let digits = allow_if(r#"{"StringLike":{"k":"*"}}"#);
    let numeric = record_with(&[context("k", "numeric", "1")]);
    assert_eq!(decide(&digits, &numeric), (ImplicitlyDenied, 0));
}

#[test]
fn written_form() {
    let text = r#" { "Statement" : { "Condition":{"NumericLessThanEquals":{"n":7},
        "StringLike":{"B:k":["*?${*}${?}$\u0024","\u0000\"\\\/"],"a":""},
        "StringEquals":{"Ak":["*?${*}$","é𝄞\u007f"]}},
        "Resource":"arn:::::${*}*?\ud834\udd1e","Action":["s3:*","s3:G?t"],
        "Effect":"Deny","Sid":"\u00415"}, "Version":"2012-10-17" } "#;
    let expected = concat!(
        r#"{"Version":"2012-10-17","Statement":[{"Sid":"A5","Effect":"Deny","#,
        r#""Action":["s3:*","s3:G?t"],"Resource":["arn:::::${*}*?\ud834\udd1e"],"#,
        r#""Condition":{"NumericLessThanEquals":{"n":["7"]},"#,
        r#""StringLike":{"B:k":["*?${*}${?}${$}${$}","\u0000\"\\/"],"a":[""]},"#,
        r#""StringEquals":{"Ak":["*?*${$}","\u00e9\ud834\udd1e\u007f"]}}}]}"#,
    );
    assert_eq!(restate(text).unwrap(), expected);
    assert_eq!(restate(expected).unwrap(), expected);
}

/// Restate writes a policy that allows nothing; Finish does not.
#[test]
fn only_denials() {
    let text = policy(&[statement("Deny", "[\"*\"]", "[\"*\"]")]);
    assert_eq!(restate(&text).unwrap(), text);
    assert_eq!(finish(&text, &vec![0; ROOM]), Err(refused(10)));
}
