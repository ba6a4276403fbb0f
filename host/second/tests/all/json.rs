//! The scan: what is JSON, where it breaks, how deep it may go.

use second::{scan, Scan};

#[test]
fn whole_texts() {
    let whole: [&[u8]; 22] = [
        b"0",
        b"-0",
        b"-0.0e-0",
        b"10",
        b"1E+5",
        b"1.25e0007",
        b"true",
        b"false",
        b"null",
        b"\"\"",
        b" \t\r\n[]\n",
        b"{}",
        b"{ }",
        b"[ ]",
        b"[1 , 2]",
        b"{\"a\" : [ ] , \"a\" : { } }",
        b"\"\\\"\\\\\\/\\b\\f\\n\\r\\t\\u00e9\\uABcd\"",
        b"\"\x7f\"",
        b"\"\\ud800\"",
        b"\"\\udc00\\ud800x\"",
        "\"é語\u{10ffff}\u{fffe}\"".as_bytes(),
        b"\"\xed\x9f\xbf\xee\x80\x80\"",
    ];
    for text in whole {
        assert_eq!(scan(text), Scan::Whole, "{}", text.escape_ascii());
    }
}

/// Each text with the place at which it breaks; where that is the length, the
/// text only stops too early.
#[test]
fn places() {
    let broken: [(&[u8], usize); 71] = [
        (b"", 0),
        (b" ", 1),
        (b"\r", 1),
        (b"\xef\xbb\xbf{}", 0),
        (b"\x00", 0),
        (b"\x0b", 0),
        (b"+1", 0),
        (b"-", 1),
        (b"-a", 1),
        (b"--", 1),
        (b"01", 1),
        (b"-01", 2),
        (b"00", 1),
        (b"1.", 2),
        (b"1.e", 2),
        (b"1.5.", 3),
        (b"1e", 2),
        (b"1e+", 3),
        (b"1e+-", 3),
        (b"1ee", 2),
        (b"1 2", 2),
        (b".5", 0),
        (b"0x0", 1),
        (b"[01]", 2),
        (b"[-]", 2),
        (b"t", 1),
        (b"tru", 3),
        (b"trux", 3),
        (b"truee", 4),
        (b"fal", 3),
        (b"nulL", 3),
        (b"True", 0),
        (b"[", 1),
        (b"[1", 2),
        (b"[1,", 3),
        (b"[1,]", 3),
        (b"[,", 1),
        (b"[1 2", 3),
        (b"[1}", 2),
        (b"]", 0),
        (b"[]]", 2),
        (b"{", 1),
        (b"{a", 1),
        (b"{1", 1),
        (b"{,", 1),
        (b"{\"a\"", 4),
        (b"{\"a\" 1", 5),
        (b"{\"a\":", 5),
        (b"{\"a\":}", 5),
        (b"{\"a\":1,", 7),
        (b"{\"a\":1,}", 7),
        (b"{\"a\":1]", 6),
        (b"{'a'", 1),
        (b"\"", 1),
        (b"\"a", 2),
        (b"\"\n\"", 1),
        (b"\"\x1f\"", 1),
        (b"\"\\", 2),
        (b"\"\\a", 2),
        (b"\"\\U0041", 2),
        (b"\"\\u", 3),
        (b"\"\\u00g0", 5),
        (b"\"\\u12", 5),
        (b"\"\x80", 1),
        (b"\"\xc0\x80", 1),
        (b"\"\xc3", 2),
        (b"\"\xc3\"", 2),
        (b"\"\xf5", 1),
        (b"// x", 0),
        (b"[]\x00", 2),
        (b"\xc3\xa9", 0),
    ];
    for (text, place) in broken {
        assert_eq!(scan(text), Scan::Breaks(place), "{}", text.escape_ascii());
    }
}

/// Characters of three and four bytes break at the first byte that no
/// character has there, which for surrogates and overlong forms is the second.
#[test]
fn utf8_places() {
    let cases: [(&[u8], usize); 16] = [
        (b"\"\xe0\x80\x80", 2),
        (b"\"\xe0\x9f\xbf", 2),
        (b"\"\xe0\xa0", 3),
        (b"\"\xe0\xa0\"", 3),
        (b"\"\xed\xa0\x80\"", 2),
        (b"\"\xed\xbf\xbf\"", 2),
        (b"\"\xef\xbf\xc0", 3),
        (b"\"\xe1\xc0", 2),
        (b"\"\xf0\x8f\xbf\xbf", 2),
        (b"\"\xf0\x90\x80", 4),
        (b"\"\xf0\x90\x80x", 4),
        (b"\"\xf4\x90\x80\x80", 2),
        (b"\"\xf4\x8f\xbf\xc0", 4),
        (b"\"\xf1\x80\x7f", 3),
        (b"\"\xfe", 1),
        (b"\"\xbf", 1),
    ];
    for (text, place) in cases {
        assert_eq!(scan(text), Scan::Breaks(place), "{}", text.escape_ascii());
    }
}

fn nested(depth: usize, inside: &str) -> Vec<u8> {
    format!("{}{inside}{}", "[".repeat(depth), "]".repeat(depth)).into_bytes()
}

#[test]
fn sixteen_levels_and_no_more() {
    assert_eq!(scan(&nested(16, "")), Scan::Whole);
    assert_eq!(scan(&nested(16, "1")), Scan::Whole);
    assert_eq!(scan(&nested(17, "")), Scan::TooDeep);
    let objects = |depth: usize| "{\"a\":".repeat(depth - 1) + "{}" + &"}".repeat(depth - 1);
    assert_eq!(scan(objects(16).as_bytes()), Scan::Whole);
    assert_eq!(scan(objects(17).as_bytes()), Scan::TooDeep);
    assert_eq!(scan(&nested(15, "{},[]")), Scan::Whole);
    assert_eq!(scan(&nested(16, "1,{}")), Scan::TooDeep);
}

/// Whichever comes first in the text decides.
#[test]
fn depth_and_breaks_in_order() {
    assert_eq!(scan(b"[[[[[[[[[[[[[[[["), Scan::Breaks(16));
    assert_eq!(scan(b"[[[[[[[[[[[[[[[[["), Scan::TooDeep);
    assert_eq!(scan(b"[[[[[[[[[[[[[[[[[}"), Scan::TooDeep);
    assert_eq!(scan(b"[[[[[[[[[[[[[[[[}["), Scan::Breaks(16));
    assert_eq!(scan(&nested(16, "1[")), Scan::Breaks(17));
    let mut text = b"[x,".to_vec();
    text.extend(nested(17, ""));
    assert_eq!(scan(&text), Scan::Breaks(1));
    let mut closed = nested(16, "");
    closed.push(b'[');
    assert_eq!(scan(&closed), Scan::Breaks(32));
}

/// Levels are counted along the nesting, not over the whole text.
#[test]
fn siblings_share_their_level() {
    let deep = String::from_utf8(nested(15, "")).unwrap();
    let many = vec![deep; 40].join(",");
    assert_eq!(scan(format!("[{many}]").as_bytes()), Scan::Whole);
}
