//! Where texts break, how deep they may go, and which refusal goes first.

use crate::tables::{
    policies, records, Expected, ACCEPTED, POLICY_LAYOUT, POLICY_LIMIT, RECORD_LAYOUT,
};
use crate::texts::*;

/// Bytes that are no JSON text, and where they break.
const BROKEN: [(&[u8], usize); 72] = [
    (b"", 0),
    (b" ", 1),
    (b"\n\t\r ", 4),
    (b"{", 1),
    (b"[", 1),
    (b"}", 0),
    (b"]", 0),
    (b",", 0),
    (b"x", 0),
    (b"'a'", 0),
    (b"\0", 0),
    (b"{}x", 2),
    (b"{} {}", 3),
    (b"{},", 2),
    (b"{}\0", 2),
    (b"// no\n{}", 0),
    (b"{} #", 3),
    (b"{]", 1),
    (b"[}", 1),
    (b"{a:1}", 1),
    (b"{1:1}", 1),
    (b"{\"a\"}", 4),
    (b"{\"a\" 1}", 5),
    (b"{\"a\":}", 5),
    (b"{\"a\":1,}", 7),
    (b"{\"a\":1 \"b\"}", 7),
    (b"[1,]", 3),
    (b"[,1]", 1),
    (b"[1 2]", 3),
    (b"[1", 2),
    (b"[1,", 3),
    (b"True", 0),
    (b"tru", 3),
    (b"trux", 3),
    (b"falsy", 4),
    (b"nul ", 3),
    (b"nulll", 4),
    (b"NaN", 0),
    (b"+1", 0),
    (b".5", 0),
    (b"-", 1),
    (b"-Infinity", 1),
    (b"-01", 2),
    (b"01", 1),
    (b"0x1", 1),
    (b"1.", 2),
    (b"1.x", 2),
    (b"1.5.2", 3),
    (b"1e", 2),
    (b"1e+", 3),
    (b"1e5.0", 3),
    (b"\"", 1),
    (b"\"a", 2),
    (b"\"\x1F\"", 1),
    (b"\"a\nb\"", 2),
    (b"\"\\x\"", 2),
    (b"\"\\U0041\"", 2),
    (b"\"\\u12g4\"", 5),
    (b"\"\\u12", 5),
    (b"\"\\", 2),
    (b"\xEF\xBB\xBF{}", 0),
    (b"\xC3\xA9", 0),
    (b"\"\x80\"", 1),
    (b"\"\xC0\x80\"", 1),
    (b"\"\xC3\"", 2),
    (b"\"\xC3", 2),
    (b"\"\xE0\x80\x80\"", 2),
    (b"\"\xE2\x82", 3),
    (b"\"\xED\xA0\x80\"", 2),
    (b"\"\xF0\x8F\xBF\xBF\"", 2),
    (b"\"\xF4\x90\x80\x80\"", 2),
    (b"\"\xF5\x80\x80\x80\"", 1),
];

#[test]
fn places() {
    policies(BROKEN.map(|(text, place)| (text, (3, place))));
    records(BROKEN.map(|(text, place)| (text, (8, place))));
}

const POLICY: &str = r#"{"Version":"2012-10-17","Statement":[{"Sid":"S","Effect":"Allow","Action":"*","Resource":["*","arn:::::é"],"Condition":{"NumericLessThanEquals":{"k":[0,"1"]}}}]}"#;

const RECORD: &str = r#"{"ActionNames":["a:b"],"ResourceArns":["arn:::::é"],"ContextEntries":[{"ContextKeyName":"k","ContextKeyType":"numeric","ContextKeyValues":["1"]}]}"#;

/// A text cut before its last byte stops too early.
#[test]
fn cuts() {
    let cut = |text: &'static str, end: usize| &text.as_bytes()[..end];
    policies((0..POLICY.len()).map(|end| (cut(POLICY, end), (3, end))));
    records((0..RECORD.len()).map(|end| (cut(RECORD, end), (8, end))));
    policies([(POLICY, ACCEPTED)]);
    records([(RECORD, ACCEPTED)]);
}

/// Only white space may stand behind a text.
#[test]
fn ends() {
    for end in [",", "}", "{", "x", "0", "\0", "\u{b}", "\u{a0}", "\u{feff}"] {
        for space in ["", " ", "\n\t\r "] {
            let behind = |text: &str| format!("{text}{space}{end}");
            policies([(behind(POLICY), (3, POLICY.len() + space.len()))]);
            records([(behind(RECORD), (8, RECORD.len() + space.len()))]);
        }
    }
}

/// Lists, one inside the other.
fn nest(levels: usize, inside: &str) -> String {
    format!("{}{inside}{}", "[".repeat(levels), "]".repeat(levels))
}

/// Sixteen levels are JSON against the layout, and what breaks behind them is
/// told; the seventeenth ends the scan.
#[test]
fn levels() {
    let table: [(String, Option<usize>); 16] = [
        (nest(16, ""), None),
        (nest(16, "1"), None),
        (nest(17, ""), None),
        (nest(16, "{}"), None),
        (format!("{}x", nest(16, "1")), Some(33)),
        (format!("{}x", nest(17, "1")), None),
        (nest(16, "01"), Some(17)),
        (nest(17, "01"), None),
        ("[".repeat(16), Some(16)),
        ("[".repeat(17), None),
        ("[".repeat(5_000), None),
        (format!("{}{}", "[".repeat(16), "}"), Some(16)),
        (format!("{}{}", "[".repeat(17), "}"), None),
        (format!("[01,{}]", nest(16, "")), Some(2)),
        (format!("[{},01]", nest(16, "")), None),
        (format!("[{},01]", nest(15, "")), Some(33)),
    ];
    let expected = |broken: u32, layout: u32, place: Option<usize>| match place {
        Some(place) => (broken, place),
        None => (layout, 0),
    };
    policies(
        table
            .clone()
            .map(|(text, place)| (text, expected(3, 4, place))),
    );
    records(table.map(|(text, place)| (text, expected(8, 9, place))));
}

/// Objects count as lists do, and names add no level.
#[test]
fn levels_of_objects() {
    let nest = |levels: usize| format!("{}1{}", "{\"a\":".repeat(levels), "}".repeat(levels));
    let behind = |levels: usize| format!("{},", nest(levels));
    policies([
        (nest(16), POLICY_LAYOUT),
        (nest(17), POLICY_LAYOUT),
        (behind(16), (3, 16 * 6 + 1)),
        (behind(17), POLICY_LAYOUT),
    ]);
    records([
        (nest(16), RECORD_LAYOUT),
        (nest(17), RECORD_LAYOUT),
        (behind(16), (8, 16 * 6 + 1)),
        (behind(17), RECORD_LAYOUT),
    ]);
}

type Spoil = fn(&str) -> String;

/// Breaks a text, and says where.
type Break = fn(&str) -> (String, usize);

const BREAKS: [Break; 4] = [
    |text| (text[..text.len() - 1].to_owned(), text.len() - 1),
    |text| (format!("{text}]"), text.len()),
    |text| (format!("x{text}"), 0),
    |text| {
        let colon = text.find(':').expect("a member");
        (text.replacen(':', "\u{1}:", 1), colon)
    },
];

/// Adds an unknown member in front of all others, and behind them.
const UNKNOWN: [Spoil; 2] = [
    |text| text.replacen('{', "{\"x\":1,", 1),
    |text| format!("{},\"x\":1}}", &text[..text.len() - 1]),
];

/// A text and what is expected of it; then with every trouble alone and with
/// several, where the lowest of these three numbers is given: too long, broken,
/// against the layout.
fn with_troubles(
    text: &str,
    expected: Expected,
    [long, broken, against]: [u32; 3],
    layout: &[Spoil],
    most_bytes: usize,
) -> Vec<(String, Expected)> {
    let mut table = vec![(text.to_owned(), expected)];
    table.extend(layout.iter().map(|spoil| (spoil(text), (against, 0))));
    for (text, _) in table.clone() {
        table.extend(BREAKS.map(|spoil| {
            let (text, place) = spoil(&text);
            (text, (broken, place))
        }));
    }
    for (text, _) in table.clone() {
        table.push((padded(&text, most_bytes + 1), (long, 0)));
    }
    table
}

/// Each refusal of a policy against each lower one: over every limit, against
/// the layout in several places, broken in several places, too long.
#[test]
fn the_lowest_refusal_of_a_policy() {
    let long_entry = format!("\"arn:::::{}\"", "x".repeat(247));
    let nine_rows: Vec<_> = (0..9)
        .map(|number| format!("\"k{number}\":\"v\""))
        .collect();
    let nine_rows = format!("{{\"StringLike\":{{{}}}}}", nine_rows.join(","));
    let over_limits = [
        policy(&list_of(ALLOW, 17)),
        with_action(&list_of("\"*\"", 64)),
        with_resource(&long_entry),
        with_condition(&nine_rows),
        with_row("StringLike", &"k".repeat(65), "\"v\""),
    ];
    let layout: [Spoil; 6] = [
        UNKNOWN[0],
        UNKNOWN[1],
        |text| text.replacen("2012", "2013", 1),
        |text| text.replacen("Allow", "allow", 1),
        |text| text.replacen("\"Effect\"", "\"Sid\":\"\\ud800\",\"Effect\"", 1),
        |text| text.replacen("\"Resource\"", "\"NotResource\":\"*\",\"Resource\"", 1),
    ];
    let over_limits = over_limits.map(|text| (text, POLICY_LIMIT));
    for (text, expected) in over_limits.into_iter().chain([(policy(ALLOW), ACCEPTED)]) {
        policies(with_troubles(&text, expected, [2, 3, 4], &layout, 16_384));
    }
}

/// Likewise of a record, where a limit has the layout's number.
#[test]
fn the_lowest_refusal_of_a_record() {
    let layout: [Spoil; 6] = [
        UNKNOWN[0],
        UNKNOWN[1],
        |text| text.replacen("a:b", "a:*", 1),
        |text| text.replacen("a:b", &format!("a:{}", "b".repeat(253)), 1),
        |text| text.replacen("a:b", "a:\\ud800", 1),
        |text| text.replacen("[]", "[{}]", 1),
    ];
    let text = with_context(&[]);
    records(with_troubles(&text, ACCEPTED, [7, 8, 9], &layout, 8_192));
}

/// A seventeenth level goes before what breaks behind it, but not before the
/// length.
#[test]
fn depth_and_length() {
    let deep = format!("{{\"x\":{},", nest(17, ""));
    let before = format!("{{01,\"x\":{},", nest(17, ""));
    policies([
        (deep.clone(), POLICY_LAYOUT),
        (padded(&deep, 16_384), POLICY_LAYOUT),
        (padded(&deep, 16_385), (2, 0)),
        (before.clone(), (3, 1)),
    ]);
    records([
        (deep.clone(), RECORD_LAYOUT),
        (padded(&deep, 8_192), RECORD_LAYOUT),
        (padded(&deep, 8_193), (7, 0)),
        (before, (8, 1)),
    ]);
}
