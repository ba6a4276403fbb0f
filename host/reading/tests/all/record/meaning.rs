//! What is read, told by hand.

use crate::agree;
use crate::texts::{context_entry, record, with_context, NUMBERS};
use second::layouts::{ContextEntry, Record, Text, Value};

fn text(characters: &str) -> Text {
    characters.chars().map(u32::from).collect()
}

fn read(text: &str) -> Record {
    agree::record(text.as_bytes()).expect("a record")
}

#[test]
fn an_absent_resource_is_the_text_of_a_star() {
    let absent = read(&record(""));
    assert_eq!(absent.action, text("a:b"));
    assert_eq!(absent.resource, text("*"));
    assert_eq!(absent.context, []);
    assert_eq!(absent, read(&record(r#","ResourceArns":["*"]"#)));
    assert_eq!(absent, read(&record(r#","ContextEntries":[]"#)));
}

/// Nothing in a record is a wildcard or an escape of a policy.
#[test]
fn characters_are_plain() {
    let meanings = [
        ("", ""),
        ("*?", "*?"),
        ("${*}", "${*}"),
        ("${x}", "${x}"),
        ("$", "$"),
        (r"\u002a\u0024{$}", "*${$}"),
        ("é語𝄞", "é語𝄞"),
        (r"\u00e9e\u0301", "ée\u{301}"),
        (r"\ud834\udd1e\udbff\udfff", "𝄞\u{10ffff}"),
        (r#"\"\\\/\b\t\n\f\r\u0000"#, "\"\\/\u{8}\t\n\u{c}\r\0"),
    ];
    for (spelled, meant) in meanings {
        let resource = read(&record(&format!(
            r#","ResourceArns":["arn:::::{spelled}"]"#
        )))
        .resource;
        assert_eq!(resource, text(&format!("arn:::::{meant}")));
        let context = read(&with_context(&[context_entry("k", "string", spelled)])).context;
        assert_eq!(context[0].value, Value::Text(text(meant)));
    }
}

#[test]
fn numbers() {
    for number in NUMBERS {
        let digits = number.to_string();
        let context = read(&with_context(&[context_entry("k", "numeric", &digits)])).context;
        assert_eq!(context[0].value, Value::Number(number));
        let context = read(&with_context(&[context_entry("k", "string", &digits)])).context;
        assert_eq!(context[0].value, Value::Text(text(&digits)));
    }
}

#[test]
fn context_entries_stay_in_order() {
    let entries = [
        context_entry("K", "string", ""),
        context_entry("a:B", "numeric", "12"),
        context_entry(r"\u0061", "string", "12"),
    ];
    let entry = |key, value| ContextEntry {
        key: text(key),
        value,
    };
    let expected = [
        entry("K", Value::Text(text(""))),
        entry("a:B", Value::Number(12)),
        entry("a", Value::Text(text("12"))),
    ];
    assert_eq!(read(&with_context(&entries)).context, expected);
}
