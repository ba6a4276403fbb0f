//! Sids: their form, and that no two are equal.

use crate::tables::{framed, policies, ACCEPTED, POLICY_LAYOUT};
use crate::texts::{policy, statements};

fn with_sid(sid: &str) -> String {
    format!(r#"{{"Sid":{sid},"Effect":"Allow","Action":"*","Resource":"*"}}"#)
}

#[test]
fn forms() {
    let frame = |sid: &str| policy(&with_sid(sid));
    let table = [
        (r#""a""#, ACCEPTED),
        (r#""Z""#, ACCEPTED),
        (r#""0""#, ACCEPTED),
        (r#""azAZ09""#, ACCEPTED),
        (r#""\u0061""#, ACCEPTED),
        (r#""""#, POLICY_LAYOUT),
        (r#"" ""#, POLICY_LAYOUT),
        (r#""a b""#, POLICY_LAYOUT),
        (r#""a-b""#, POLICY_LAYOUT),
        (r#""a_b""#, POLICY_LAYOUT),
        (r#""a.b""#, POLICY_LAYOUT),
        (r#""a/""#, POLICY_LAYOUT),
        (r#""a:""#, POLICY_LAYOUT),
        (r#""a@""#, POLICY_LAYOUT),
        (r#""a[""#, POLICY_LAYOUT),
        (r#""a`""#, POLICY_LAYOUT),
        (r#""a{""#, POLICY_LAYOUT),
        (r#""a*""#, POLICY_LAYOUT),
        (r#""${*}""#, POLICY_LAYOUT),
        (r#""é""#, POLICY_LAYOUT),
        (r#""\u00e9""#, POLICY_LAYOUT),
        (r#""٣""#, POLICY_LAYOUT),
        (r#""\u0161""#, POLICY_LAYOUT),
        (r#""\ud800\udc61""#, POLICY_LAYOUT),
        (r#""\u0000""#, POLICY_LAYOUT),
        (r#""\n""#, POLICY_LAYOUT),
        (r#""\ud800""#, POLICY_LAYOUT),
        (r#""a\udc00""#, POLICY_LAYOUT),
        (r#"["a"]"#, POLICY_LAYOUT),
        (r#"{"a":1}"#, POLICY_LAYOUT),
        ("7", POLICY_LAYOUT),
        ("null", POLICY_LAYOUT),
        ("true", POLICY_LAYOUT),
    ];
    policies(framed(frame, &table));
}

/// A length against the form goes by the layout's number.
#[test]
fn lengths() {
    let frame =
        |(part, count): (&str, usize)| policy(&with_sid(&format!("\"{}\"", part.repeat(count))));
    let table = [
        (("a", 1), ACCEPTED),
        (("a", 64), ACCEPTED),
        (("a", 65), POLICY_LAYOUT),
        (("a", 0), POLICY_LAYOUT),
        (("a", 300), POLICY_LAYOUT),
        ((r"\u0061", 64), ACCEPTED),
        ((r"\u0061", 65), POLICY_LAYOUT),
    ];
    policies(framed(frame, &table));
}

#[test]
fn no_two_are_equal() {
    let frame = |sids: &[&str]| {
        let sid = |sid: &&str| match *sid {
            "" => r#"{"Effect":"Allow","Action":"*","Resource":"*"}"#.to_owned(),
            sid => with_sid(&format!("\"{sid}\"")),
        };
        statements(&sids.iter().map(sid).collect::<Vec<_>>())
    };
    let table: [(&[&str], _); 13] = [
        (&["a", "A"], ACCEPTED),
        (&["a", "b"], ACCEPTED),
        (&["a", "aa"], ACCEPTED),
        (&["aa", "a"], ACCEPTED),
        (&["0", r"\u0031"], ACCEPTED),
        (&["a", "", "b", ""], ACCEPTED),
        (&["", ""], ACCEPTED),
        (&["a", "a"], POLICY_LAYOUT),
        (&["a", r"\u0061"], POLICY_LAYOUT),
        (&["a", "b", "a"], POLICY_LAYOUT),
        (&["a", "", "", "a"], POLICY_LAYOUT),
        (&["", "b", "c", "b"], POLICY_LAYOUT),
        (&["x", "b", "c", "c"], POLICY_LAYOUT),
    ];
    policies(framed(frame, &table));
    let denied = with_sid("\"a\"").replace("Allow", "Deny");
    policies([(statements(&[with_sid("\"a\""), denied]), POLICY_LAYOUT)]);
}
