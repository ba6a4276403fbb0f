//! Both sides of every limit of a record; all that is over one is refused as
//! what is against the layout.

use crate::tables::{framed, records, ACCEPTED, RECORD_BYTES, RECORD_LAYOUT};
use crate::texts::*;

#[test]
fn context_entries() {
    let frame = |count: usize| {
        let entry = |number| context_entry(&format!("k{number}"), "numeric", "1");
        with_context(&(0..count).map(entry).collect::<Vec<_>>())
    };
    let table = [
        (1, ACCEPTED),
        (15, ACCEPTED),
        (16, ACCEPTED),
        (17, RECORD_LAYOUT),
        (80, RECORD_LAYOUT),
    ];
    records(framed(frame, &table));
}

/// Characters that count as one; in a record the three escapes are four.
const CHARACTERS: [&str; 12] = [
    "a",
    "*",
    "?",
    "$",
    "é",
    "語",
    "𝄞",
    r"\u0061",
    r"\u00e9",
    r"\ud834\udd1e",
    r"\n",
    r"\/",
];

/// Both sides for a text that begins so, each character given alone.
fn sides(frame: impl Fn(&str) -> String, beginning: &str) {
    let long = |part: &str, width: usize, length: usize| {
        let count = (length - beginning.len()) / width;
        frame(&format!("{beginning}{}", part.repeat(count)))
    };
    for character in CHARACTERS {
        records([
            (long(character, 1, 253), ACCEPTED),
            (long(character, 1, 254), ACCEPTED),
            (long(character, 1, 255), RECORD_LAYOUT),
            (long(character, 1, 600), RECORD_LAYOUT),
        ]);
    }
    let then_escape = |length: usize| {
        let plain = "v".repeat(length - beginning.len() - 4);
        frame(&format!("{beginning}{plain}${{*}}"))
    };
    records([
        (long("${*}", 4, 252), ACCEPTED),
        (long("${*}", 4, 256), RECORD_LAYOUT),
        (then_escape(254), ACCEPTED),
        (then_escape(255), RECORD_LAYOUT),
    ]);
}

#[test]
fn characters_of_resources_and_values() {
    let resource = |text: &str| record(&format!(r#","ResourceArns":["{text}"]"#));
    sides(resource, "arn:::::");
    let value = |text: &str| with_context(&[context_entry("k", "string", text)]);
    sides(value, "");
}

#[test]
fn characters_of_actions() {
    let frame =
        |(part, count): (&str, usize)| format!(r#"{{"ActionNames":["a:{}"]}}"#, part.repeat(count));
    let table = [
        (("b", 251), ACCEPTED),
        (("b", 252), ACCEPTED),
        (("b", 253), RECORD_LAYOUT),
        (("b", 4000), RECORD_LAYOUT),
        ((r"\u0062", 252), ACCEPTED),
        ((r"\u0062", 253), RECORD_LAYOUT),
    ];
    records(framed(frame, &table));
    let vendor = |count: usize| format!(r#"{{"ActionNames":["{}:b"]}}"#, "a".repeat(count));
    records([(vendor(252), ACCEPTED), (vendor(253), RECORD_LAYOUT)]);
}

#[test]
fn characters_of_keys() {
    let frame = |(part, count): (&str, usize)| {
        with_context(&[context_entry(&part.repeat(count), "string", "v")])
    };
    let table = [
        (("k", 63), ACCEPTED),
        (("k", 64), ACCEPTED),
        (("k", 65), RECORD_LAYOUT),
        (("k", 500), RECORD_LAYOUT),
        ((r"\u006b", 64), ACCEPTED),
        ((r"\u006b", 65), RECORD_LAYOUT),
    ];
    records(framed(frame, &table));
}

#[test]
fn bytes() {
    let short = record("");
    let before = |length: usize| format!("{}{short}", "\t".repeat(length - short.len()));
    records([
        (padded(&short, 8_191), ACCEPTED),
        (padded(&short, 8_192), ACCEPTED),
        (padded(&short, 8_193), RECORD_BYTES),
        (before(8_192), ACCEPTED),
        (before(8_193), RECORD_BYTES),
        (" ".repeat(8_192), (8, 8_192)),
        (" ".repeat(8_193), RECORD_BYTES),
        ("x".repeat(100_000), RECORD_BYTES),
    ]);
}

/// A record of about the greatest length that says something everywhere.
#[test]
fn a_full_record() {
    let entry = |number| context_entry(&format!("k{number}"), "string", &"é".repeat(216));
    let entries: Vec<_> = (0..16).map(entry).collect();
    let text = with_context(&entries);
    assert!(text.len() > 8_000, "{}", text.len());
    records([
        (padded(&text, 8_192), ACCEPTED),
        (padded(&text, 8_193), RECORD_BYTES),
    ]);
}
