//! Action entries, and lists of entries.

use crate::tables::{framed, policies, Expected, ACCEPTED, POLICY_LAYOUT};
use crate::texts::{quoted, with_action, with_resource, with_row};

/// One string or a list of at least one, wherever entries stand.
#[test]
fn one_entry_or_a_list() {
    let table: [(&str, Expected); 22] = [
        (r#""*""#, ACCEPTED),
        (r#"["*"]"#, ACCEPTED),
        (r#"["*","*"]"#, ACCEPTED),
        (r#"[ "*" , "*" , "*" ]"#, ACCEPTED),
        ("[]", POLICY_LAYOUT),
        ("[ ]", POLICY_LAYOUT),
        ("[[]]", POLICY_LAYOUT),
        (r#"[["*"]]"#, POLICY_LAYOUT),
        (r#"["*",["*"]]"#, POLICY_LAYOUT),
        ("{}", POLICY_LAYOUT),
        (r#"{"*":"*"}"#, POLICY_LAYOUT),
        (r#"[{}]"#, POLICY_LAYOUT),
        (r#"["*",{"*":"*"}]"#, POLICY_LAYOUT),
        ("null", POLICY_LAYOUT),
        (r#"["*",null]"#, POLICY_LAYOUT),
        (r#"[null,"*"]"#, POLICY_LAYOUT),
        ("true", POLICY_LAYOUT),
        (r#"["*",false]"#, POLICY_LAYOUT),
        ("7.5", POLICY_LAYOUT),
        (r#"["*",-7]"#, POLICY_LAYOUT),
        (r#""\ud800""#, POLICY_LAYOUT),
        (r#"["*","\udc00"]"#, POLICY_LAYOUT),
    ];
    policies(framed(with_action, &table));
    policies(framed(with_resource, &table));
    policies(framed(
        |values| with_row("StringEquals", "k", values),
        &table,
    ));
    policies(framed(|values| with_row("StringLike", "k", values), &table));
}

#[test]
fn forms() {
    let table = [
        ("*", ACCEPTED),
        (r"\u002a", ACCEPTED),
        ("a:b", ACCEPTED),
        ("s3:*", ACCEPTED),
        ("s3:?", ACCEPTED),
        ("s3:**", ACCEPTED),
        ("s3:Get*", ACCEPTED),
        ("s3:*Get?x*", ACCEPTED),
        ("s3:G??", ACCEPTED),
        ("a-b_c.9:-_.", ACCEPTED),
        ("-:-", ACCEPTED),
        ("_:.", ACCEPTED),
        (".:_", ACCEPTED),
        ("0:9", ACCEPTED),
        ("Az:aZ", ACCEPTED),
        (r"s3\u003aGet\u002A", ACCEPTED),
        ("", POLICY_LAYOUT),
        ("**", POLICY_LAYOUT),
        ("?", POLICY_LAYOUT),
        ("*:*", POLICY_LAYOUT),
        ("*:b", POLICY_LAYOUT),
        ("?:b", POLICY_LAYOUT),
        ("s*:Get", POLICY_LAYOUT),
        ("s?:Get", POLICY_LAYOUT),
        ("s3", POLICY_LAYOUT),
        ("s3*", POLICY_LAYOUT),
        ("s3:", POLICY_LAYOUT),
        (":Get", POLICY_LAYOUT),
        (":", POLICY_LAYOUT),
        (":*", POLICY_LAYOUT),
        ("s3:Get:x", POLICY_LAYOUT),
        ("s3::Get", POLICY_LAYOUT),
        ("s3:*:", POLICY_LAYOUT),
        ("s3:Get Object", POLICY_LAYOUT),
        (" s3:Get", POLICY_LAYOUT),
        ("s3:Get ", POLICY_LAYOUT),
        ("é:b", POLICY_LAYOUT),
        ("s3:é", POLICY_LAYOUT),
        (r"s3:\u00e9", POLICY_LAYOUT),
        (r"s3:\u016b", POLICY_LAYOUT),
        (r"s3:\ud834\udd1e", POLICY_LAYOUT),
        ("${*}", POLICY_LAYOUT),
        ("a:${*}", POLICY_LAYOUT),
        ("a:${$}", POLICY_LAYOUT),
        ("a:$", POLICY_LAYOUT),
        (r"a:b\n", POLICY_LAYOUT),
        (r"a:b\u0000", POLICY_LAYOUT),
        (r"a:b\u007f", POLICY_LAYOUT),
        (r"a:\ud800", POLICY_LAYOUT),
        (r"\udc00:b", POLICY_LAYOUT),
        (r#"a:\""#, POLICY_LAYOUT),
        (r"a:\\", POLICY_LAYOUT),
    ];
    policies(framed(|action: &str| with_action(&quoted(action)), &table));
    let list = |action: &str| with_action(&format!(r#"["a:b","{action}"]"#));
    policies(framed(list, &table));
}

/// Every ASCII character, spelled by its number, in a vendor and in a name.
#[test]
fn characters() {
    for byte in 0..=0x7F_u8 {
        let plain = byte.is_ascii_alphanumeric() || b"-_.".contains(&byte);
        let wild = b"*?".contains(&byte);
        let expected = |legal| if legal { ACCEPTED } else { POLICY_LAYOUT };
        // A colon more is in the vendor's place, or ends it.
        let in_vendor = format!("\"a\\u{byte:04x}:b\"");
        let in_name = format!("\"a:b\\u{byte:04x}\"");
        policies([
            (with_action(&in_vendor), expected(plain)),
            (with_action(&in_name), expected(plain || wild)),
        ]);
    }
}
