//! Action and Resource entries, their wildcards and escapes.

use super::matches;
use crate::texts::{list_of, record};

/// Fails unless an Action entry matches a record's action as expected.
fn action(entry: &str, asked: &str, expected: bool) {
    let record = format!(r#"{{"ActionNames":["{asked}"]}}"#);
    for entries in [format!("\"{entry}\""), format!(r#"["no:thing","{entry}"]"#)] {
        let members = format!(r#""Action":{entries},"Resource":"*""#);
        matches(&members, &record, expected);
    }
}

/// Fails unless a Resource entry matches a record's resource as expected.
fn resource(entry: &str, asked: &str, expected: bool) {
    let record = record(&format!(r#","ResourceArns":["{asked}"]"#));
    for entries in [
        format!("\"{entry}\""),
        format!(r#"["arn:no:thing:::","{entry}"]"#),
    ] {
        let members = format!(r#""Action":"*","Resource":{entries}"#);
        matches(&members, &record, expected);
    }
}

#[test]
fn actions() {
    for (entry, asked, expected) in [
        ("*", "s3:GetObject", true),
        ("*", "a:b", true),
        (r"\u002a", "a:b", true),
        ("a:b", "a:b", true),
        ("a:b", "a:bc", false),
        ("a:bc", "a:b", false),
        ("a:b", "A:b", false),
        ("a:b", "a:B", false),
        ("a:b", "b:a", false),
        (r"a\u003ab", "a:b", true),
        ("a:b", r"\u0061:b", true),
        ("s3:*", "s3:G", true),
        ("s3:*", "s3:GetObject", true),
        ("s3:*", "s3x:G", false),
        ("s3:*", "s:G", false),
        ("s3:**", "s3:G", true),
        ("s3:?", "s3:G", true),
        ("s3:?", "s3:Ge", false),
        ("s3:??", "s3:G", false),
        ("s3:?*", "s3:G", true),
        ("s3:Get*", "s3:Get", true),
        ("s3:Get*", "s3:GetObject", true),
        ("s3:Get*", "s3:Ge", false),
        ("s3:Get*", "s3:get", false),
        ("s3:Get*", "s3:PutGet", false),
        ("s3:*Object", "s3:GetObject", true),
        ("s3:*Object", "s3:GetObjects", false),
        ("s3:*Object", "s3:Object", true),
        ("s3:G*t", "s3:GetObject", true),
        ("s3:G*t", "s3:Gt", true),
        ("s3:G*t", "s3:G", false),
        ("s3:G?t", "s3:Get", true),
        ("s3:G?t", "s3:G-t", true),
        ("s3:G?t", "s3:Gt", false),
        ("s3:*-*_*.*", "s3:a-b_c.d", true),
        ("s3:*-*_*.*", "s3:a-b.c_d", false),
        ("a.b:c", "a-b:c", false),
        ("a-b_c.9:-_.", "a-b_c.9:-_.", true),
    ] {
        action(entry, asked, expected);
    }
}

#[test]
fn resources() {
    for (entry, asked, expected) in [
        ("*", "*", true),
        ("*", "arn:::::", true),
        ("*", "arn:aws:s3:::gate/north/é1", true),
        ("arn:::::", "*", false),
        ("arn:::::*", "*", false),
        ("arn:::::", "arn:::::", true),
        ("arn:::::", "arn::::::", false),
        ("arn::::::", "arn:::::", false),
        ("arn:aws:s3:::gate/*", "arn:aws:s3:::gate/", true),
        ("arn:aws:s3:::gate/*", "arn:aws:s3:::gate/north/é1", true),
        ("arn:aws:s3:::gate/*", "arn:aws:s3:::gate", false),
        ("arn:aws:s3:::gate/*", "arn:aws:s3:::Gate/x", false),
        ("arn:aws:s3:::gate/*", "arn:aws:s3:::gates/x", false),
        ("arn:aws:s3:::gate/*", "arn:aws:s3:eu:1:gate/x", false),
        ("arn:aws:s3:*:*:gate", "arn:aws:s3:eu:1:gate", true),
        ("arn:aws:s3:*:*:gate", "arn:aws:s3:::gate", true),
        ("arn:*:::::gate", "arn:aws:s3:::::::gate", true),
        ("arn:*:::::gate", "arn:aws:s3::::gate", false),
        ("arn:?:::::", "arn:a:::::", true),
        ("arn:?:::::", "arn::::::", false),
        ("arn:?:::::", "arn:::::::", true),
        ("arn:::::?", "arn:::::é", true),
        ("arn:::::?", "arn:::::𝄞", true),
        ("arn:::::?", r"arn:::::\ud834\udd1e", true),
        ("arn:::::?", "arn:::::e\u{301}", false),
        ("arn:::::??", "arn:::::𝄞", false),
        ("arn:::::a?c", "arn:::::abc", true),
        ("arn:::::a?c", "arn:::::ac", false),
        ("arn:::::*x*", "arn:::::x", true),
        ("arn:::::*x*", "arn:::::y", false),
        ("arn:::::*/*/end", "arn:::::a/b/c/end", true),
        ("arn:::::*/*/end", "arn:::::a/end", false),
    ] {
        resource(entry, asked, expected);
    }
}

/// What is escaped in a policy is plain; in a record everything is.
#[test]
fn escapes() {
    for (entry, asked, expected) in [
        ("arn:::::*", "arn:::::*", true),
        ("arn:::::?", "arn:::::*", true),
        ("arn:::::?", "arn:::::?", true),
        ("arn:::::${*}", "arn:::::*", true),
        ("arn:::::${*}", "arn:::::", false),
        ("arn:::::${*}", "arn:::::x", false),
        ("arn:::::${*}", "arn:::::${*}", false),
        ("arn:::::${?}", "arn:::::?", true),
        ("arn:::::${?}", "arn:::::x", false),
        ("arn:::::${$}", "arn:::::$", true),
        ("arn:::::$", "arn:::::$", true),
        ("arn:::::$x", "arn:::::$x", true),
        ("arn:::::$${*}", "arn:::::$*", true),
        ("arn:::::$${*}", "arn:::::$x", false),
        ("arn:::::$*", "arn:::::$", true),
        ("arn:::::$*", "arn:::::x", false),
        ("arn:::::${$}{*}", "arn:::::${}", true),
        ("arn:::::${$}{*}", "arn:::::${*}", true),
        ("arn:::::${$}{*}", "arn:::::${north}", true),
        ("arn:::::${$}{${*}}", "arn:::::${*}", true),
        ("arn:::::${$}{${*}}", "arn:::::${north}", false),
        ("arn:::::a${*}*", "arn:::::a*b", true),
        ("arn:::::a${*}*", "arn:::::ab", false),
        (r"arn:::::\u002a", "arn:::::north", true),
        (r"arn:::::\u0024{*}", "arn:::::*", true),
        (r"arn:::::\u0024{*}", "arn:::::north", false),
        (r"arn:::::${\u003f}", "arn:::::?", true),
        (r#"arn:::::\"\\"#, r"arn:::::\u0022\u005C", true),
    ] {
        resource(entry, asked, expected);
    }
}

/// An absent resource is the text of a star.
#[test]
fn absent_resources() {
    for (entry, expected) in [
        ("\"*\"", true),
        (r#"["arn:::::*","*"]"#, true),
        ("\"arn:::::*\"", false),
        ("\"arn:::::${*}\"", false),
        (r#"["arn:::::","arn:*:::::"]"#, false),
    ] {
        let members = format!(r#""Action":"*","Resource":{entry}"#);
        matches(&members, &record(""), expected);
        matches(&members, &record(r#","ResourceArns":["*"]"#), expected);
    }
}

/// One entry of each list is enough, wherever it stands.
#[test]
fn several_entries() {
    let asked = record(r#","ResourceArns":["arn:::::r"]"#);
    for (actions, resources, expected) in [
        (r#"["a:b","a:c"]"#, r#"["arn:::::r","arn:::::s"]"#, true),
        (r#"["a:c","a:b"]"#, r#"["arn:::::s","arn:::::r"]"#, true),
        (r#"["a:c","a:*"]"#, r#"["arn:::::s","*"]"#, true),
        (r#"["a:b","a:b"]"#, r#"["arn:::::r","arn:::::r"]"#, true),
        (r#"["a:c","a:d"]"#, r#"["arn:::::s","arn:::::r"]"#, false),
        (r#"["a:c","a:b"]"#, r#"["arn:::::s","arn:::::t"]"#, false),
    ] {
        let members = format!(r#""Action":{actions},"Resource":{resources}"#);
        matches(&members, &asked, expected);
    }
    let many = list_of("\"a:c\"", 63);
    let last = many.replace("\"a:c\"]", "\"a:b\"]");
    for (actions, expected) in [(many, false), (last, true)] {
        let members = format!(r#""Action":{actions},"Resource":"*""#);
        matches(&members, &asked, expected);
    }
}
