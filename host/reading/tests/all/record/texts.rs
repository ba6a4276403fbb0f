//! The action and the resource of a record.

use crate::tables::{framed, records, ACCEPTED, RECORD_LAYOUT};

fn with_action(action: &str) -> String {
    format!(r#"{{"ActionNames":["{action}"]}}"#)
}

fn with_resource(resource: &str) -> String {
    format!(r#"{{"ActionNames":["a:b"],"ResourceArns":["{resource}"]}}"#)
}

#[test]
fn actions() {
    let table = [
        ("a:b", ACCEPTED),
        ("s3:GetObject", ACCEPTED),
        ("a-b_c.9:-_.", ACCEPTED),
        ("-:.", ACCEPTED),
        (r"a\u003ab", ACCEPTED),
        ("", RECORD_LAYOUT),
        ("*", RECORD_LAYOUT),
        (r"\u002a", RECORD_LAYOUT),
        ("?", RECORD_LAYOUT),
        ("a:*", RECORD_LAYOUT),
        ("a:b*", RECORD_LAYOUT),
        ("a:?", RECORD_LAYOUT),
        (r"a:b\u002a", RECORD_LAYOUT),
        ("*:b", RECORD_LAYOUT),
        ("a", RECORD_LAYOUT),
        ("a:", RECORD_LAYOUT),
        (":b", RECORD_LAYOUT),
        (":", RECORD_LAYOUT),
        ("a:b:c", RECORD_LAYOUT),
        ("a::b", RECORD_LAYOUT),
        ("a:b ", RECORD_LAYOUT),
        (" a:b", RECORD_LAYOUT),
        ("a/b:c", RECORD_LAYOUT),
        ("é:b", RECORD_LAYOUT),
        ("a:é", RECORD_LAYOUT),
        (r"a:\u00e9", RECORD_LAYOUT),
        (r"a:\ud834\udd1e", RECORD_LAYOUT),
        ("a:$", RECORD_LAYOUT),
        ("a:${*}", RECORD_LAYOUT),
        (r"a:b\u0000", RECORD_LAYOUT),
        (r"a:\ud800", RECORD_LAYOUT),
        (r"\udc00:b", RECORD_LAYOUT),
    ];
    records(framed(with_action, &table));
}

/// Every ASCII character, spelled by its number, in a vendor and in a name.
#[test]
fn characters_of_actions() {
    for byte in 0..=0x7F_u8 {
        let legal = byte.is_ascii_alphanumeric() || b"-_.".contains(&byte);
        let expected = if legal { ACCEPTED } else { RECORD_LAYOUT };
        records([
            (with_action(&format!("a\\u{byte:04x}:b")), expected),
            (with_action(&format!("a:b\\u{byte:04x}")), expected),
        ]);
    }
}

#[test]
fn resources() {
    let table = [
        ("*", ACCEPTED),
        (r"\u002a", ACCEPTED),
        ("arn:::::", ACCEPTED),
        ("arn::::::", ACCEPTED),
        ("arn:aws:s3:::gate/north/é1", ACCEPTED),
        ("arn:a:b:c:d:e:f", ACCEPTED),
        (r"\u0061rn\u003a::::", ACCEPTED),
        ("arn:::::*", ACCEPTED),
        ("arn:*:?:::", ACCEPTED),
        ("arn:::::$", ACCEPTED),
        ("arn:::::${*}", ACCEPTED),
        ("arn:::::${x}", ACCEPTED),
        ("arn:::::${", ACCEPTED),
        (r"arn:::::\u0000\ud834\udd1e𝄞", ACCEPTED),
        ("", RECORD_LAYOUT),
        ("**", RECORD_LAYOUT),
        ("?", RECORD_LAYOUT),
        ("x", RECORD_LAYOUT),
        ("arn", RECORD_LAYOUT),
        ("arn:", RECORD_LAYOUT),
        ("arn::::", RECORD_LAYOUT),
        ("arn::::*", RECORD_LAYOUT),
        ("arn*:::::", RECORD_LAYOUT),
        ("ARN:::::", RECORD_LAYOUT),
        ("aRn:::::", RECORD_LAYOUT),
        (" arn:::::", RECORD_LAYOUT),
        ("* ", RECORD_LAYOUT),
        (":::::", RECORD_LAYOUT),
        ("${*}", RECORD_LAYOUT),
        ("$", RECORD_LAYOUT),
        (r"arn:::::\ud800", RECORD_LAYOUT),
        (r"arn:::::\udc00", RECORD_LAYOUT),
        (r"arn:::::\ud800\ud800\udc00", RECORD_LAYOUT),
    ];
    records(framed(with_resource, &table));
}
