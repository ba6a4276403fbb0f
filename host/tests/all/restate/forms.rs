//! The written form by hand: order, lists, entries, numbers, keys.

use super::{restates, restates_statement};
use crate::texts::{policy, ALLOW};

/// How the statement that allows everything is written.
const ALLOWED: &str = r#"{"Effect":"Allow","Action":["*"],"Resource":["*"]}"#;

#[test]
fn policies() {
    let one = policy(&format!("[{ALLOWED}]"));
    let two = policy(&format!(r#"[{ALLOWED},{ALLOWED}]"#));
    restates(&policy(ALLOW), &one);
    restates(&policy(&format!("[{ALLOW}]")), &one);
    restates(&policy(&format!(" [ {ALLOW}\n,\t{ALLOW} ] ")), &two);
    let swapped = format!(r#" {{ "Statement" : {ALLOW} , "\u0056ersion":"2012\u002d10-17" }} "#);
    restates(&swapped, &one);
}

#[test]
fn statements() {
    for (statement, expected) in [
        (ALLOW, ALLOWED),
        (
            r#"{"Effect":"Deny","Action":"*","Resource":"*"}"#,
            r#"{"Effect":"Deny","Action":["*"],"Resource":["*"]}"#,
        ),
        (
            r#"{"Resource":"*","Action":["a:b","a:c"],"Effect":"Deny","Sid":"s1"}"#,
            r#"{"Sid":"s1","Effect":"Deny","Action":["a:b","a:c"],"Resource":["*"]}"#,
        ),
        (
            r#"{ "Effect" : "\u0041llow" , "Action" : [ "a:b" , "a:b" ] , "Resource" : [ "arn:::::" , "*" ] }"#,
            r#"{"Effect":"Allow","Action":["a:b","a:b"],"Resource":["arn:::::","*"]}"#,
        ),
        (
            r#"{"Condition":{"StringLike":{"k":"v"}},"Sid":"\u0053","Resource":"*","Action":"*","Effect":"Allow"}"#,
            r#"{"Sid":"S","Effect":"Allow","Action":["*"],"Resource":["*"],"Condition":{"StringLike":{"k":["v"]}}}"#,
        ),
    ] {
        restates_statement(statement, expected);
    }
}

/// Operators and rows stand as they were read, values in lists, numbers as
/// strings.
#[test]
fn conditions() {
    for (condition, expected) in [
        (
            r#"{"StringEquals":{"k":""}}"#,
            r#"{"StringEquals":{"k":[""]}}"#,
        ),
        (
            r#"{"StringLike":{"b":"v","a":["w","v"]}}"#,
            r#"{"StringLike":{"b":["v"],"a":["w","v"]}}"#,
        ),
        (
            r#"{"NumericLessThanEquals":{"k":7}}"#,
            r#"{"NumericLessThanEquals":{"k":["7"]}}"#,
        ),
        (
            r#"{"NumericLessThanEquals":{"k":[0,"10",9007199254740991,"9007199254740990",4294967296,4294967295]}}"#,
            r#"{"NumericLessThanEquals":{"k":["0","10","9007199254740991","9007199254740990","4294967296","4294967295"]}}"#,
        ),
        (
            r#"{"NumericLessThanEquals":{"k":"\u0031\u0030"}}"#,
            r#"{"NumericLessThanEquals":{"k":["10"]}}"#,
        ),
        (
            r#"{"StringLike":{"k":"v"},"NumericLessThanEquals":{"k":1},"StringEquals":{"k":"v"}}"#,
            r#"{"StringLike":{"k":["v"]},"NumericLessThanEquals":{"k":["1"]},"StringEquals":{"k":["v"]}}"#,
        ),
        (
            r#"{"StringEquals":{"a":"1","b":"2"},"StringLike":{"c":"3","B":["4","5"]}}"#,
            r#"{"StringEquals":{"a":["1"],"b":["2"]},"StringLike":{"c":["3"],"B":["4","5"]}}"#,
        ),
        (
            r#"{"\u0053tringLike":{"\u004b":"v","aws:Tag\/X-_.9":"v"}}"#,
            r#"{"StringLike":{"K":["v"],"aws:Tag/X-_.9":["v"]}}"#,
        ),
    ] {
        let frame = |condition: &str, star: &str| {
            format!(
                r#"{{"Effect":"Deny","Action":{star},"Resource":{star},"Condition":{condition}}}"#
            )
        };
        let expected = frame(expected, r#"["*"]"#);
        restates_statement(&frame(condition, r#""*""#), &expected);
    }
}

/// Numbers of every length, with every digit.
#[test]
fn numbers() {
    let powers = (0..16).map(|exponent| 10_u64.pow(exponent));
    let around = powers.flat_map(|power| [power - 1, power, 9 * power / 8, power / 81]);
    let numbers: Vec<String> = around.map(|number| number.to_string()).collect();
    let frame = |values: &str| {
        format!(
            r#"{{"Effect":"Allow","Action":["*"],"Resource":["*"],"Condition":{{"NumericLessThanEquals":{{"k":[{values}]}}}}}}"#
        )
    };
    for part in numbers.chunks(32) {
        let written = format!(r#""{}""#, part.join(r#"",""#));
        restates_statement(&frame(&part.join(",")), &frame(&written));
    }
}

/// Wildcards are bare; what is plain is escaped where it could be one.
#[test]
fn escapes() {
    let table = [
        ("*", "*", "*"),
        ("?", "?", "?"),
        ("a*?b**", "a*?b**", "a*?b**"),
        (r"\u002a\u003f", "*?", "*?"),
        ("${*}", "*", "${*}"),
        ("${?}", "?", "${?}"),
        ("${$}", "${$}", "${$}"),
        ("$", "${$}", "${$}"),
        ("$$", "${$}${$}", "${$}${$}"),
        ("$x}", "${$}x}", "${$}x}"),
        ("{$}", "{${$}}", "{${$}}"),
        ("$${*}", "${$}*", "${$}${*}"),
        ("${$}{x}", "${$}{x}", "${$}{x}"),
        ("${$}{*}", "${$}{*}", "${$}{*}"),
        (r"\u0024{?}", "?", "${?}"),
        (r"$\u007b*\u007d", "*", "${*}"),
        ("${*}*${?}?", "**??", "${*}*${?}?"),
    ];
    let frame = |operator: &str, entry: &str, arn: &str| {
        format!(
            r#"{{"Effect":"Allow","Action":["s3:*?"],"Resource":["arn:::::{arn}"],"Condition":{{"{operator}":{{"k":["{entry}"]}}}}}}"#
        )
    };
    for (entry, equals, like) in table {
        restates_statement(
            &frame("StringLike", entry, entry),
            &frame("StringLike", like, like),
        );
        let expected = policy(&format!("[{}]", frame("StringEquals", equals, like)));
        restates(&policy(&frame("StringEquals", entry, entry)), &expected);
    }
}
