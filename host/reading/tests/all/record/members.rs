//! The members of a record.

use crate::tables::{records, ACCEPTED, RECORD_LAYOUT};

#[test]
fn members_of_a_record() {
    records([
        (r#"{"ActionNames":["a:b"]}"#, ACCEPTED),
        (r#"{"ActionNames":["a:b"],"ResourceArns":["*"]}"#, ACCEPTED),
        (r#"{"ActionNames":["a:b"],"ContextEntries":[]}"#, ACCEPTED),
        (
            r#"{"ContextEntries":[],"ResourceArns":["arn:::::"],"ActionNames":["a:b"]}"#,
            ACCEPTED,
        ),
        (
            r#"{"\u0041ctionNames":["a:b"],"\u0052esourceArns":["*"],"\u0043ontextEntries":[]}"#,
            ACCEPTED,
        ),
        ("\t{ \"ActionNames\" :\n[ \"a:b\" ]\r} ", ACCEPTED),
        ("{}", RECORD_LAYOUT),
        ("[]", RECORD_LAYOUT),
        (r#"[{"ActionNames":["a:b"]}]"#, RECORD_LAYOUT),
        (r#""a:b""#, RECORD_LAYOUT),
        (r#""\ud800""#, RECORD_LAYOUT),
        ("1", RECORD_LAYOUT),
        ("null", RECORD_LAYOUT),
        (" true", RECORD_LAYOUT),
        (r#"{"ResourceArns":["*"]}"#, RECORD_LAYOUT),
        (
            r#"{"ResourceArns":["*"],"ContextEntries":[]}"#,
            RECORD_LAYOUT,
        ),
        (r#"{"ActionNames":["a:b"],"CallerArn":"x"}"#, RECORD_LAYOUT),
        (r#"{"ActionNames":["a:b"],"":1}"#, RECORD_LAYOUT),
        (
            r#"{"ActionNames":["a:b"],"PolicyInputList":[]}"#,
            RECORD_LAYOUT,
        ),
        (r#"{"actionNames":["a:b"]}"#, RECORD_LAYOUT),
        (r#"{"ActionName":["a:b"]}"#, RECORD_LAYOUT),
        (r#"{"ActionNames ":["a:b"]}"#, RECORD_LAYOUT),
        (
            r#"{"ActionNames":["a:b"],"resourceArns":["*"]}"#,
            RECORD_LAYOUT,
        ),
        (
            r#"{"ActionNames":["a:b"],"contextEntries":[]}"#,
            RECORD_LAYOUT,
        ),
        (
            r#"{"ActionNames":["a:b"],"ActionNames":["a:b"]}"#,
            RECORD_LAYOUT,
        ),
        (
            r#"{"ActionNames":["a:b"],"\u0041ctionNames":["a:b"]}"#,
            RECORD_LAYOUT,
        ),
        (
            r#"{"ActionNames":["a:b"],"ResourceArns":["*"],"ResourceArns":["*"]}"#,
            RECORD_LAYOUT,
        ),
        (
            r#"{"ActionNames":["a:b"],"ContextEntries":[],"ContextEntries":[]}"#,
            RECORD_LAYOUT,
        ),
        (r#"{"ActionNames":["a:b"],"\ud800":1}"#, RECORD_LAYOUT),
        (r#"{"ActionNames\udc00":["a:b"]}"#, RECORD_LAYOUT),
    ]);
}

/// Exactly one is a list of one string.
#[test]
fn exactly_one() {
    let lists = [
        ("[GOOD]", ACCEPTED),
        ("[ GOOD\t]", ACCEPTED),
        ("GOOD", RECORD_LAYOUT),
        ("[]", RECORD_LAYOUT),
        ("[ ]", RECORD_LAYOUT),
        ("[GOOD,GOOD]", RECORD_LAYOUT),
        ("[GOOD,1]", RECORD_LAYOUT),
        ("[GOOD,[]]", RECORD_LAYOUT),
        ("[[GOOD]]", RECORD_LAYOUT),
        ("[{}]", RECORD_LAYOUT),
        ("[1]", RECORD_LAYOUT),
        ("[null]", RECORD_LAYOUT),
        ("[true]", RECORD_LAYOUT),
        ("{}", RECORD_LAYOUT),
        ("{\"0\":GOOD}", RECORD_LAYOUT),
        ("null", RECORD_LAYOUT),
        ("1", RECORD_LAYOUT),
        ("[\"\\ud800\"]", RECORD_LAYOUT),
    ];
    let frames = [
        (r#"{"ActionNames":LIST}"#, "\"a:b\""),
        (r#"{"ActionNames":["a:b"],"ResourceArns":LIST}"#, "\"*\""),
        (
            r#"{"ActionNames":["a:b"],"ContextEntries":[{"ContextKeyName":"k","ContextKeyType":"string","ContextKeyValues":LIST}]}"#,
            "\"1\"",
        ),
        (
            r#"{"ActionNames":["a:b"],"ContextEntries":[{"ContextKeyName":"k","ContextKeyType":"numeric","ContextKeyValues":LIST}]}"#,
            "\"1\"",
        ),
    ];
    for (frame, good) in frames {
        let set = |list: &str| frame.replace("LIST", &list.replace("GOOD", good));
        records(lists.map(|(list, expected)| (set(list), expected)));
    }
}
