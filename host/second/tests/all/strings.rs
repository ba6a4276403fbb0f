//! From raw bytes to characters and back.

use second::{decode_string, write_string, LoneSurrogate};

fn characters(text: &str) -> Vec<u32> {
    text.chars().map(u32::from).collect()
}

#[test]
fn escapes_are_resolved() {
    let cases: [(&str, &str); 10] = [
        ("", ""),
        ("abc", "abc"),
        (r#"\"\\\/\b\f\n\r\t"#, "\"\\/\u{8}\u{c}\n\r\t"),
        (r"\u0041\u00e9\u00E9", "Aéé"),
        ("é語𝄞", "é語𝄞"),
        (r"\ud834\udd1e", "𝄞"),
        (r"\uD834\uDD1Ex", "𝄞x"),
        (r"\ud800\udc00\udbff\udfff", "\u{10000}\u{10ffff}"),
        (r"\u0000\uffff", "\0\u{ffff}"),
        ("\u{7f}e\u{301}", "\u{7f}e\u{301}"),
    ];
    for (raw, text) in cases {
        assert_eq!(decode_string(raw.as_bytes()), Ok(characters(text)), "{raw}");
    }
}

#[test]
fn lone_surrogates() {
    let lone = [
        r"\ud800",
        r"\udbff",
        r"\udc00",
        r"\udfff",
        r"a\ud800b",
        r"\ud800\ud800\udc00",
        r"\ud800\u0041",
        r"\ud800\udbff",
        r"\ud800\ue000",
        r"\ud800\uffff",
        r"\ud800\n",
        r"\udc00\ud800",
        r"\ud834\udd1e\udd1e",
        "\\ud800é",
    ];
    for raw in lone {
        assert_eq!(decode_string(raw.as_bytes()), Err(LoneSurrogate), "{raw}");
    }
}

#[test]
fn written_form() {
    let cases: [(&str, &str); 6] = [
        ("a/ ~", "a/ ~"),
        ("\"\\", r#"\"\\"#),
        ("\0\u{1f}\n", r"\u0000\u001f\u000a"),
        ("\u{7e}\u{7f}\u{80}é", r"~\u007f\u0080\u00e9"),
        ("\u{ffff}\u{10000}", r"\uffff\ud800\udc00"),
        ("𝄞\u{10ffff}", r"\ud834\udd1e\udbff\udfff"),
    ];
    for (text, raw) in cases {
        let mut written = Vec::new();
        write_string(&characters(text), &mut written);
        assert_eq!(String::from_utf8(written).unwrap(), raw);
        assert_eq!(decode_string(raw.as_bytes()), Ok(characters(text)));
    }
}

/// Bytes that no scan lets through are of no use here, but must not panic.
#[test]
fn nonsense_does_not_panic() {
    for raw in [
        &b"\\"[..],
        b"\\u",
        b"\\u12",
        b"\\ud800\\",
        b"\xf4",
        b"\xe0\x80",
        b"\x80\xff",
    ] {
        let _ = decode_string(raw);
    }
}
