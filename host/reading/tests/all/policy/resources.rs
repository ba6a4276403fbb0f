//! Resource entries, and the wildcards and escapes of all entries.

use crate::tables::{framed, policies, Expected, ACCEPTED, POLICY_LAYOUT};
use crate::texts::{quoted, with_resource, with_row};

#[test]
fn forms() {
    let table = [
        ("*", ACCEPTED),
        (r"\u002a", ACCEPTED),
        ("arn:::::", ACCEPTED),
        ("arn::::::", ACCEPTED),
        ("arn:aws:s3:::gate", ACCEPTED),
        ("arn:aws:s3:::gate/*", ACCEPTED),
        ("arn:a:b:c:d:e:f", ACCEPTED),
        ("arn:*:*:*:*:*", ACCEPTED),
        ("arn:?:?:?:?:", ACCEPTED),
        ("arn:aws:s3:::é", ACCEPTED),
        (r"arn\u003a:::\u003a", ACCEPTED),
        (r"\u0061rn:::::\ud834\udd1e", ACCEPTED),
        (r"arn:::::\u0000\n\\\/", ACCEPTED),
        ("arn::::${*}:", ACCEPTED),
        ("", POLICY_LAYOUT),
        ("**", POLICY_LAYOUT),
        ("*?", POLICY_LAYOUT),
        ("?", POLICY_LAYOUT),
        (" *", POLICY_LAYOUT),
        ("* ", POLICY_LAYOUT),
        ("x", POLICY_LAYOUT),
        ("arn", POLICY_LAYOUT),
        ("arn:", POLICY_LAYOUT),
        ("arn::::", POLICY_LAYOUT),
        ("arn:aws:s3::gate", POLICY_LAYOUT),
        ("arn::::*", POLICY_LAYOUT),
        ("arn::::?", POLICY_LAYOUT),
        ("arn:*", POLICY_LAYOUT),
        ("arn*", POLICY_LAYOUT),
        ("ARN:::::", POLICY_LAYOUT),
        ("Arn:::::", POLICY_LAYOUT),
        (" arn:::::", POLICY_LAYOUT),
        ("arn :::::", POLICY_LAYOUT),
        ("arm:::::", POLICY_LAYOUT),
        (":::::", POLICY_LAYOUT),
        ("*:::::", POLICY_LAYOUT),
        ("*arn:::::", POLICY_LAYOUT),
        ("a*n:::::", POLICY_LAYOUT),
        ("arn?:::::", POLICY_LAYOUT),
        ("?rn:::::", POLICY_LAYOUT),
        ("${*}", POLICY_LAYOUT),
        ("${?}", POLICY_LAYOUT),
        ("${$}", POLICY_LAYOUT),
        ("$", POLICY_LAYOUT),
        (r"\u0024{*}", POLICY_LAYOUT),
        ("${*}rn:::::", POLICY_LAYOUT),
        (r"arn:::::\ud800", POLICY_LAYOUT),
        (r"arn:::::\udc00\ud800", POLICY_LAYOUT),
        (r"arn:::::\ud800\ud800\udc00", POLICY_LAYOUT),
        (r"arn:::::\ud800x\udc00", POLICY_LAYOUT),
    ];
    policies(framed(
        |resource: &str| with_resource(&quoted(resource)),
        &table,
    ));
    let list = |resource: &str| with_resource(&format!(r#"["{resource}","*"]"#));
    policies(framed(list, &table));
}

/// The three escapes and all else that begins with a dollar sign.
const ESCAPES: [(&str, Expected); 46] = [
    ("$", ACCEPTED),
    ("$$", ACCEPTED),
    ("$x", ACCEPTED),
    ("$}", ACCEPTED),
    ("$*", ACCEPTED),
    ("$ {", ACCEPTED),
    ("$ {x}", ACCEPTED),
    ("{x}", ACCEPTED),
    ("{$}", ACCEPTED),
    ("}{$", ACCEPTED),
    ("*{", ACCEPTED),
    ("${*}", ACCEPTED),
    ("${?}", ACCEPTED),
    ("${$}", ACCEPTED),
    ("$${*}", ACCEPTED),
    ("$$${?}", ACCEPTED),
    ("${*}}", ACCEPTED),
    ("${*}{x}", ACCEPTED),
    ("${$}{x}", ACCEPTED),
    ("${$}{", ACCEPTED),
    ("${$}$", ACCEPTED),
    ("${*}${?}${$}", ACCEPTED),
    ("x${*}*", ACCEPTED),
    (r"\u0024{*}", ACCEPTED),
    (r"$\u007b?\u007d", ACCEPTED),
    (r"${\u0024}", ACCEPTED),
    ("${", POLICY_LAYOUT),
    ("${}", POLICY_LAYOUT),
    ("${x}", POLICY_LAYOUT),
    ("${x", POLICY_LAYOUT),
    ("${*", POLICY_LAYOUT),
    ("${$", POLICY_LAYOUT),
    ("${**}", POLICY_LAYOUT),
    ("${*?}", POLICY_LAYOUT),
    ("${ *}", POLICY_LAYOUT),
    ("${* }", POLICY_LAYOUT),
    ("${*)", POLICY_LAYOUT),
    ("${aws:username}", POLICY_LAYOUT),
    ("${{*}}", POLICY_LAYOUT),
    ("$${", POLICY_LAYOUT),
    ("$${x}", POLICY_LAYOUT),
    ("${*}${", POLICY_LAYOUT),
    ("${$}${x}", POLICY_LAYOUT),
    (r"\u0024{x}", POLICY_LAYOUT),
    (r"$\u007bx}", POLICY_LAYOUT),
    ("${é}", POLICY_LAYOUT),
];

#[test]
fn escapes() {
    for end in ["", "x", ":", "é"] {
        let resource = |text: &str| with_resource(&format!("\"arn:::::{text}{end}\""));
        // What follows an unfinished escape does not finish it.
        policies(framed(resource, &ESCAPES));
        for operator in ["StringEquals", "StringLike"] {
            let value = |text: &str| with_row(operator, "k", &format!("\"{text}{end}\""));
            policies(framed(value, &ESCAPES));
        }
    }
}
