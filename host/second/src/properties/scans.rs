//! The JSON scan by itself, against the model's byte-by-byte reading.

use super::{ensure, show, Check};
use crate::generate::random::Random;
use crate::generate::{any_case, damage};
use crate::model::json;
use crate::{decode_string, scan, write_string, Scan};

/// Scans of generated texts, damaged ever more, and of scraps of JSON.
pub fn scans_agree(random: &mut Random) -> Check {
    let mut text = any_case(random).policy;
    for _ in 0..4 {
        scan_agrees(&text)?;
        text = damage::damage_record(&text, random);
    }
    for _ in 0..20 {
        scan_agrees(&scraps(random))?;
    }
    strings_return(random)
}

fn scan_agrees(text: &[u8]) -> Check {
    let (found, expected) = (scan(text), json::scan(text));
    ensure(found == expected, || {
        format!("scan {found:?}, expected {expected:?} of {}", show(text))
    })?;
    match found {
        Scan::Breaks(place) => place_is_first(text, place),
        _ => Ok(()),
    }
}

/// Up to the place the text can be gone on with; from there on it cannot,
/// whatever follows.
fn place_is_first(text: &[u8], place: usize) -> Check {
    let before = scan(&text[..place]);
    let begins = before == Scan::Whole || before == Scan::Breaks(place);
    let mut longer = text[..text.len().min(place + 1)].to_vec();
    longer.extend_from_slice(b"\"]}0 ");
    let ends = place == text.len() || scan(&longer) == Scan::Breaks(place);
    ensure(begins && ends, || {
        format!("place {place} is not the first of {}", show(text))
    })
}

/// A few tokens in a row, mostly not JSON.
fn scraps(random: &mut Random) -> Vec<u8> {
    let tokens: [&[u8]; 30] = [
        b"{",
        b"}",
        b"[",
        b"]",
        b":",
        b",",
        b"\"",
        b"\"a\"",
        b"\"\\u00e9\"",
        b"\\",
        b" ",
        b"\n",
        b"\x0c",
        b"0",
        b"-",
        b"1",
        b".",
        b"e",
        b"E+",
        b"true",
        b"fals",
        b"e",
        b"null",
        b"\xc3\xa9",
        b"\x7f",
        b"\xef\xbb\xbf",
        b"[[[[[[[[",
        b"{\"\":",
        b"\xed\x9f\xbf",
        b"\x00",
    ];
    let count = random.below(12);
    (0..count)
        .flat_map(|_| random.pick(&tokens).iter().copied())
        .collect()
}

/// Characters written and read again are the same.
fn strings_return(random: &mut Random) -> Check {
    let length = random.below(40);
    let characters = (0..length).map(|_| {
        let bits = random.between(1, 21);
        let number = random.below(1 << bits) as u32;
        u32::from(char::from_u32(number).unwrap_or('\u{fffd}'))
    });
    let characters: Vec<u32> = characters.collect();
    let mut raw = Vec::new();
    write_string(&characters, &mut raw);
    let ascii = raw.iter().all(|byte| (0x20..0x7F).contains(byte));
    let read = decode_string(&raw);
    ensure(ascii && read.as_deref() == Ok(&characters), || {
        format!("{characters:?} written as {} read as {read:?}", show(&raw))
    })
}
