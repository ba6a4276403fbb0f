//! Numbers of conditions, as JSON numbers and as strings.

use crate::tables::{framed, policies, ACCEPTED, POLICY_LAYOUT};
use crate::texts::{quoted, with_row};

fn with_number(values: &str) -> String {
    with_row("NumericLessThanEquals", "k", values)
}

/// What is alike as a JSON number and between quotes.
#[test]
fn values() {
    let table = [
        ("0", ACCEPTED),
        ("1", ACCEPTED),
        ("9", ACCEPTED),
        ("10", ACCEPTED),
        ("100", ACCEPTED),
        ("4294967295", ACCEPTED),
        ("4294967296", ACCEPTED),
        ("999999999999999", ACCEPTED),
        ("9007199254740990", ACCEPTED),
        ("9007199254740991", ACCEPTED),
        ("9007199254740992", POLICY_LAYOUT),
        ("9007199254740999", POLICY_LAYOUT),
        ("9007199254741000", POLICY_LAYOUT),
        ("9999999999999999", POLICY_LAYOUT),
        ("10000000000000000", POLICY_LAYOUT),
        ("90071992547409910", POLICY_LAYOUT),
        ("18446744073709551615", POLICY_LAYOUT),
        ("18446744073709551616", POLICY_LAYOUT),
        ("18446744073709551617", POLICY_LAYOUT),
        ("36893488147419103233", POLICY_LAYOUT),
        ("100000000000000000000000000000000000000000", POLICY_LAYOUT),
        ("-0", POLICY_LAYOUT),
        ("-1", POLICY_LAYOUT),
        ("0.0", POLICY_LAYOUT),
        ("1.0", POLICY_LAYOUT),
        ("0.5", POLICY_LAYOUT),
        ("1e2", POLICY_LAYOUT),
        ("1E2", POLICY_LAYOUT),
        ("0e0", POLICY_LAYOUT),
        ("1e+0", POLICY_LAYOUT),
        ("10e-1", POLICY_LAYOUT),
    ];
    policies(framed(with_number, &table));
    policies(framed(|digits: &str| with_number(&quoted(digits)), &table));
    policies(framed(
        |digits: &str| with_number(&format!("[0,{digits}]")),
        &table,
    ));
    policies(framed(
        |digits: &str| with_number(&format!(r#"["{digits}",7]"#)),
        &table,
    ));
}

/// What can stand between quotes alone.
#[test]
fn strings() {
    let table = [
        (r"\u0037", ACCEPTED),
        (r"\u0030", ACCEPTED),
        (r"\u0039007199254740991", ACCEPTED),
        ("", POLICY_LAYOUT),
        ("00", POLICY_LAYOUT),
        ("01", POLICY_LAYOUT),
        ("007", POLICY_LAYOUT),
        (r"\u00301", POLICY_LAYOUT),
        ("0000000000000000000000001", POLICY_LAYOUT),
        ("09007199254740991", POLICY_LAYOUT),
        ("+1", POLICY_LAYOUT),
        (" 1", POLICY_LAYOUT),
        ("1 ", POLICY_LAYOUT),
        ("1,000", POLICY_LAYOUT),
        ("1_000", POLICY_LAYOUT),
        ("0x1", POLICY_LAYOUT),
        ("1.", POLICY_LAYOUT),
        (".1", POLICY_LAYOUT),
        ("1a", POLICY_LAYOUT),
        ("/", POLICY_LAYOUT),
        (":", POLICY_LAYOUT),
        ("1:", POLICY_LAYOUT),
        ("１", POLICY_LAYOUT),
        ("١", POLICY_LAYOUT),
        (r"\u0131", POLICY_LAYOUT),
        (r"1\u0000", POLICY_LAYOUT),
        (r"1\ud800", POLICY_LAYOUT),
        ("*", POLICY_LAYOUT),
        ("${$}", POLICY_LAYOUT),
        ("Infinity", POLICY_LAYOUT),
        ("NaN", POLICY_LAYOUT),
    ];
    policies(framed(|digits: &str| with_number(&quoted(digits)), &table));
    let long = |digit: &str| with_number(&quoted(&digit.repeat(300)));
    policies([(long("0"), POLICY_LAYOUT), (long("9"), POLICY_LAYOUT)]);
}

#[test]
fn other_values() {
    let table = [
        ("[0]", ACCEPTED),
        (r#"["0"]"#, ACCEPTED),
        (r#"[0,"7",7]"#, ACCEPTED),
        ("[]", POLICY_LAYOUT),
        ("{}", POLICY_LAYOUT),
        ("null", POLICY_LAYOUT),
        ("true", POLICY_LAYOUT),
        ("false", POLICY_LAYOUT),
        ("[[0]]", POLICY_LAYOUT),
        ("[0,[]]", POLICY_LAYOUT),
        ("[0,null]", POLICY_LAYOUT),
        ("[true]", POLICY_LAYOUT),
        (r#"{"0":0}"#, POLICY_LAYOUT),
    ];
    policies(framed(with_number, &table));
}

/// A leading zero is no JSON number: the text breaks behind it.
#[test]
fn leading_zeros() {
    let before = with_number("0").find("0}").expect("the value");
    for digits in ["00", "01", "007", "09007199254740991"] {
        policies([(with_number(digits), (3, before + 1))]);
    }
    policies([(with_number("-01"), (3, before + 2))]);
}

/// A JSON number is no text.
#[test]
fn numbers_as_texts() {
    for operator in ["StringEquals", "StringLike"] {
        let frame = |values: &str| with_row(operator, "k", values);
        let table = [
            ("\"0\"", ACCEPTED),
            ("0", POLICY_LAYOUT),
            ("7", POLICY_LAYOUT),
            ("[\"0\",0]", POLICY_LAYOUT),
            ("9007199254740992", POLICY_LAYOUT),
        ];
        policies(framed(frame, &table));
    }
}
