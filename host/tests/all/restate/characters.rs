//! Every character, in every place that takes it.

use super::{restates, ROOM};
use crate::agree;
use crate::texts::policy;
use second::generate::share::spread;

/// A character between quotes, but for the escapes of policies.
fn written(character: char) -> String {
    match character {
        '"' => r#"\""#.to_owned(),
        '\\' => r"\\".to_owned(),
        ' '..='~' => character.to_string(),
        _ => {
            let mut units = [0; 2];
            let units = character.encode_utf16(&mut units).iter();
            units.map(|unit| format!("\\u{unit:04x}")).collect()
        }
    }
}

/// A character as a JSON escape, or two.
fn escaped(character: char) -> String {
    let mut units = [0; 2];
    let units = character.encode_utf16(&mut units).iter();
    units.map(|unit| format!("\\u{unit:04X}")).collect()
}

fn row(operator: &str, entry: &str) -> String {
    policy(&format!(
        r#"[{{"Effect":"Allow","Action":["*"],"Resource":["*"],"Condition":{{"{operator}":{{"k":["{entry}"]}}}}}}]"#
    ))
}

fn resource(entry: &str) -> String {
    policy(&format!(
        r#"[{{"Effect":"Allow","Action":["*"],"Resource":["arn:::::{entry}"]}}]"#
    ))
}

#[test]
fn some_by_hand() {
    for (entry, expected) in [
        (r#"\""#, r#"\""#),
        (r"\\", r"\\"),
        (r"\/", "/"),
        (r"\b\t\n\f\r", r"\u0008\u0009\u000a\u000c\u000d"),
        (r"\u0000\u001f\u0020", r"\u0000\u001f "),
        ("~\u{7f}\u{80}\u{9f}\u{a0}", r"~\u007f\u0080\u009f\u00a0"),
        ("é\u{fffd}\u{ffff}", r"\u00e9\ufffd\uffff"),
        ("e\u{301}", r"e\u0301"),
        ("\u{2028}\u{feff}", r"\u2028\ufeff"),
        ("\u{d7ff}\u{e000}", r"\ud7ff\ue000"),
        (
            "\u{10000}𝄞\u{10ffff}",
            r"\ud800\udc00\ud834\udd1e\udbff\udfff",
        ),
        (r"\uD834\uDD1E\u00E9", r"\ud834\udd1e\u00e9"),
        ("[]{}:,' &<>", "[]{}:,' &<>"),
    ] {
        for operator in ["StringEquals", "StringLike"] {
            restates(&row(operator, entry), &row(operator, expected));
        }
        restates(&resource(entry), &resource(expected));
    }
}

/// Each character of ASCII, spelled by its number, alone and in a text. A * or ?
/// so spelled is a wildcard where there are any.
#[test]
fn ascii() {
    for character in (0..=0x7F_u8).map(char::from) {
        let plain = match character {
            '$' => "${$}".to_owned(),
            _ => written(character),
        };
        for (before, behind) in [("", ""), ("x", "y"), ("é", "𝄞")] {
            let ends = [before, behind].map(|end| end.chars().map(written).collect::<String>());
            let entry = format!("{before}{}{behind}", escaped(character));
            let expected = format!("{}{plain}{}", ends[0], ends[1]);
            for operator in ["StringEquals", "StringLike"] {
                restates(&row(operator, &entry), &row(operator, &expected));
            }
            restates(&resource(&entry), &resource(&expected));
        }
    }
}

/// Every character beyond ASCII, 254 at a time, as it is and spelled by its
/// number.
#[test]
fn every_other() {
    let all: Vec<char> = ('\u{80}'..=char::MAX).collect();
    for (number, part) in spread(all.chunks(254).enumerate()) {
        let expected: String = part.iter().copied().map(written).collect();
        let spelled: String = match number % 2 {
            0 => part.iter().collect(),
            _ => part.iter().copied().map(escaped).collect(),
        };
        let policy = row("StringEquals", &spelled);
        let expected = row("StringEquals", &expected).into_bytes();
        let found = agree::restate(policy.as_bytes(), ROOM);
        assert_eq!(found, Ok(expected), "from {:?}", part[0]);
    }
}
