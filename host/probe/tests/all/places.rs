//! Tokens broken at every place, by every byte that could.

use crate::{compare, compare_cuts, compare_each, compare_replaced};
use second::generate::random::Random;
use second::generate::share::share;

/// Texts with each kind of token, each byte of which is replaced by each of
/// the 256.
#[test]
fn every_byte_at_every_place_agrees() {
    let texts: [&[u8]; 8] = [
        b" true ",
        b"\tfalse\r",
        b"\nnull\n",
        b"[-10.250e+07, -0, 0.0E-1, 9e9]",
        b"\"a\\\"\\\\\\/\\b\\f\\n\\r\\t\\u00Ef\\uD834\\udD1e\"",
        b"\"\xC3\xA9\xE0\xA0\x80\xED\x9F\xBF\xEF\xBF\xBF\xF0\x90\x80\x80\xF4\x8F\xBF\xBF\x7F\"",
        b"{ \"a\" : [ ] , \"b\" : { } , \"c\" : [ 1 , 2 ] }",
        b"[{\"Effect\":\"Allow\",\"Action\":[\"s3:Get*\"]}]",
    ];
    for text in texts {
        compare_cuts(text);
        compare_replaced(text, text.len(), 0..=u8::MAX);
    }
}

/// Four bytes between quotes, each from the edges of what UTF-8 tells apart.
#[test]
fn sequences_agree() {
    let edges = *b"\x1F\x20a\"\\\x7F\x80\x8F\x90\x9F\xA0\xBF\xC0\xC1\xC2\xDF\xE0\xE1\xEC\xED\xEE\xEF\xF0\xF1\xF3\xF4\xF5\xFF";
    compare_each(b"\"", 4, &edges, b"\"");
}

/// Four characters behind `\u`, each from the edges of hexadecimal digits; and
/// every byte behind a reverse solidus.
#[test]
fn escapes_agree() {
    compare_each(b"\"\\u", 4, b"/09:@AFG`afg\"", b"\"");
    for byte in 0..=u8::MAX {
        compare_cuts(&[b'"', b'\\', byte, b'"']);
    }
}

/// Numbers in all their forms, alone and in a list, cut at every place and
/// followed there by something else.
#[test]
fn numbers_cut_everywhere_agree() {
    let mut random = Random::new(4);
    let parts: [&[&str]; 5] = [
        &["", "-", "+", "--"],
        &["0", "7", "10", "00", "9007199254740991", ""],
        &["", ".", ".0", ".250", "..1"],
        &["", "e", "E+", "e-7", "E10", "e+-1"],
        &["", " ", ",", "]", "x", "\""],
    ];
    for _ in 0..share(4_000) {
        let number: String = parts.iter().map(|part| random.word(part)).collect();
        compare_cuts(number.as_bytes());
        for place in 0..=number.len() {
            compare(format!("[{}]", &number[..place]).as_bytes());
            compare(format!("{{\"a\":{} ,", &number[..place]).as_bytes());
        }
    }
}
