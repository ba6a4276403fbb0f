//! Context entries.

use crate::tables::{framed, records, ACCEPTED, RECORD_LAYOUT};
use crate::texts::{context_entry, record, with_context};

#[test]
fn lists() {
    let frame = |list: &str| {
        let entry = context_entry("k", "string", "v");
        record(&format!(
            r#","ContextEntries":{}"#,
            list.replace("ENTRY", &entry)
        ))
    };
    let table = [
        ("[]", ACCEPTED),
        ("[ ]", ACCEPTED),
        ("[ENTRY]", ACCEPTED),
        ("ENTRY", RECORD_LAYOUT),
        ("[[ENTRY]]", RECORD_LAYOUT),
        ("[[]]", RECORD_LAYOUT),
        ("[ENTRY,[]]", RECORD_LAYOUT),
        ("[ENTRY,1]", RECORD_LAYOUT),
        ("[ENTRY,null]", RECORD_LAYOUT),
        ("[ENTRY,\"k\"]", RECORD_LAYOUT),
        ("[\"k\"]", RECORD_LAYOUT),
        ("[{}]", RECORD_LAYOUT),
        ("[ENTRY,{}]", RECORD_LAYOUT),
        ("{}", RECORD_LAYOUT),
        ("{\"0\":ENTRY}", RECORD_LAYOUT),
        ("null", RECORD_LAYOUT),
        ("\"k\"", RECORD_LAYOUT),
        ("0", RECORD_LAYOUT),
        ("false", RECORD_LAYOUT),
    ];
    records(framed(frame, &table));
}

#[test]
fn members_of_an_entry() {
    let frame = |members: &str| {
        let members = members
            .replace("NAME", r#""ContextKeyName":"k""#)
            .replace("TYPE", r#""ContextKeyType":"string""#)
            .replace("VALUES", r#""ContextKeyValues":["v"]"#);
        with_context(&[format!("{{{members}}}")])
    };
    let table = [
        ("NAME,TYPE,VALUES", ACCEPTED),
        ("VALUES,TYPE,NAME", ACCEPTED),
        ("TYPE,VALUES,NAME", ACCEPTED),
        (r#""\u0043ontextKeyName":"k",VALUES,TYPE"#, ACCEPTED),
        ("NAME,TYPE", RECORD_LAYOUT),
        ("NAME,VALUES", RECORD_LAYOUT),
        ("TYPE,VALUES", RECORD_LAYOUT),
        ("NAME", RECORD_LAYOUT),
        (r#"NAME,TYPE,VALUES,"x":1"#, RECORD_LAYOUT),
        (r#"NAME,TYPE,VALUES,"":1"#, RECORD_LAYOUT),
        ("NAME,TYPE,VALUES,NAME", RECORD_LAYOUT),
        ("NAME,TYPE,VALUES,TYPE", RECORD_LAYOUT),
        ("NAME,TYPE,VALUES,VALUES", RECORD_LAYOUT),
        (
            r#"NAME,TYPE,VALUES,"\u0043ontextKeyName":"k""#,
            RECORD_LAYOUT,
        ),
        (r#""contextKeyName":"k",TYPE,VALUES"#, RECORD_LAYOUT),
        (r#"NAME,"ContextKeytype":"string",VALUES"#, RECORD_LAYOUT),
        (r#"NAME,TYPE,"ContextKeyValue":["v"]"#, RECORD_LAYOUT),
        (r#"NAME,TYPE,VALUES,"\ud800":1"#, RECORD_LAYOUT),
        (r#""ContextKeyName":["k"],TYPE,VALUES"#, RECORD_LAYOUT),
        (r#""ContextKeyName":1,TYPE,VALUES"#, RECORD_LAYOUT),
        (r#""ContextKeyName":null,TYPE,VALUES"#, RECORD_LAYOUT),
        (r#"NAME,"ContextKeyType":["string"],VALUES"#, RECORD_LAYOUT),
        (r#"NAME,"ContextKeyType":null,VALUES"#, RECORD_LAYOUT),
        (r#"NAME,"ContextKeyType":true,VALUES"#, RECORD_LAYOUT),
    ];
    records(framed(frame, &table));
}

#[test]
fn types() {
    let frame = |kind: &str| with_context(&[context_entry("k", kind, "1")]);
    let table = [
        ("string", ACCEPTED),
        ("numeric", ACCEPTED),
        (r"\u0073tring", ACCEPTED),
        (r"numeri\u0063", ACCEPTED),
        ("String", RECORD_LAYOUT),
        ("NUMERIC", RECORD_LAYOUT),
        ("stringList", RECORD_LAYOUT),
        ("numericList", RECORD_LAYOUT),
        ("boolean", RECORD_LAYOUT),
        ("date", RECORD_LAYOUT),
        ("ip", RECORD_LAYOUT),
        ("binary", RECORD_LAYOUT),
        ("strin", RECORD_LAYOUT),
        ("string ", RECORD_LAYOUT),
        ("", RECORD_LAYOUT),
        (r"string\ud800", RECORD_LAYOUT),
    ];
    records(framed(frame, &table));
}

#[test]
fn keys() {
    let frame = |key: &str| with_context(&[context_entry(key, "string", "v")]);
    let table = [
        ("k", ACCEPTED),
        ("aws:Tag/x", ACCEPTED),
        ("a:B-c_D/e.9", ACCEPTED),
        (":", ACCEPTED),
        (r"\u006b", ACCEPTED),
        ("", RECORD_LAYOUT),
        (" ", RECORD_LAYOUT),
        ("a b", RECORD_LAYOUT),
        ("é", RECORD_LAYOUT),
        (r"\u212a", RECORD_LAYOUT),
        ("k*", RECORD_LAYOUT),
        ("k?", RECORD_LAYOUT),
        ("${k}", RECORD_LAYOUT),
        (r"k\ud800", RECORD_LAYOUT),
    ];
    records(framed(frame, &table));
    for byte in 0..=0x7F_u8 {
        let legal = byte.is_ascii_alphanumeric() || b":-_/.".contains(&byte);
        let expected = if legal { ACCEPTED } else { RECORD_LAYOUT };
        records([(frame(&format!("\\u{byte:04x}k")), expected)]);
    }
}

#[test]
fn repeated_keys() {
    let frame = |keys: &[&str]| {
        let kinds = ["string", "numeric"].into_iter().cycle();
        let entries = keys
            .iter()
            .zip(kinds)
            .map(|(key, kind)| context_entry(key, kind, "1"));
        with_context(&entries.collect::<Vec<_>>())
    };
    let table: [(&[&str], _); 12] = [
        (&["k", "l"], ACCEPTED),
        (&["k", "kk"], ACCEPTED),
        (&["k-", "k_", "k.", "k/", "k:"], ACCEPTED),
        (&["k", "k"], RECORD_LAYOUT),
        (&["k", "l", "k"], RECORD_LAYOUT),
        (&["k", "K"], RECORD_LAYOUT),
        (&["K", "l", "k"], RECORD_LAYOUT),
        (&["k", r"\u006b"], RECORD_LAYOUT),
        (&["k", r"\u004b"], RECORD_LAYOUT),
        (&["aws:Tag/Z", "AWS:tag/z"], RECORD_LAYOUT),
        (&["a", "b", "c", "d", "B"], RECORD_LAYOUT),
        (&["1", "2", "1"], RECORD_LAYOUT),
    ];
    records(framed(frame, &table));
}

#[test]
fn texts() {
    let frame = |value: &str| with_context(&[context_entry("k", "string", value)]);
    let table = [
        ("", ACCEPTED),
        (" ", ACCEPTED),
        ("*", ACCEPTED),
        ("?", ACCEPTED),
        ("$", ACCEPTED),
        ("${*}", ACCEPTED),
        ("${x}", ACCEPTED),
        ("${", ACCEPTED),
        ("01", ACCEPTED),
        ("é語𝄞", ACCEPTED),
        (r"\u0000\ud834\udd1e", ACCEPTED),
        (r#"\"\\\/\b\f\n\r\t"#, ACCEPTED),
        (r"\ud800", RECORD_LAYOUT),
        (r"\udfff", RECORD_LAYOUT),
        (r"\ud800\ud800\udc00", RECORD_LAYOUT),
        (r"\udbff\ue000", RECORD_LAYOUT),
    ];
    records(framed(frame, &table));
}

#[test]
fn numbers() {
    let frame = |value: &str| with_context(&[context_entry("k", "numeric", value)]);
    let table = [
        ("0", ACCEPTED),
        ("7", ACCEPTED),
        ("10", ACCEPTED),
        ("4294967295", ACCEPTED),
        ("4294967296", ACCEPTED),
        ("9007199254740991", ACCEPTED),
        (r"\u0037", ACCEPTED),
        ("9007199254740992", RECORD_LAYOUT),
        ("9007199254741000", RECORD_LAYOUT),
        ("10000000000000000", RECORD_LAYOUT),
        ("18446744073709551616", RECORD_LAYOUT),
        ("18446744073709551617", RECORD_LAYOUT),
        ("", RECORD_LAYOUT),
        ("00", RECORD_LAYOUT),
        ("01", RECORD_LAYOUT),
        (r"\u00301", RECORD_LAYOUT),
        ("-0", RECORD_LAYOUT),
        ("-1", RECORD_LAYOUT),
        ("+1", RECORD_LAYOUT),
        ("1.0", RECORD_LAYOUT),
        ("1e2", RECORD_LAYOUT),
        (" 1", RECORD_LAYOUT),
        ("1 ", RECORD_LAYOUT),
        ("x", RECORD_LAYOUT),
        ("１", RECORD_LAYOUT),
        ("*", RECORD_LAYOUT),
        (r"1\u0000", RECORD_LAYOUT),
        (r"1\ud800", RECORD_LAYOUT),
    ];
    records(framed(frame, &table));
}

/// A value is a string, whatever its type.
#[test]
fn json_numbers() {
    for kind in ["string", "numeric"] {
        let entry = context_entry("k", kind, "1");
        let bare = entry.replace("[\"1\"]", "[1]");
        records([
            (with_context(&[entry]), ACCEPTED),
            (with_context(&[bare]), RECORD_LAYOUT),
        ]);
    }
}
