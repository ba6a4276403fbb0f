//! The proved decoder and writer against the second implementation's.

use crate::hexadecimal;
use probe::Decoded;
use second::generate::random::Random;
use second::generate::share::{share, spread};
use second::{decode_string, write_string, Scan};

/// What the room holds before; no character has this number.
const BLANK: u32 = u32::MAX;

/// Compares the decoders on the raw bytes of a string, in a room of so many
/// numbers, with what the proved one leaves in the room.
fn compare_decoders(raw: &[u8], room: usize) {
    let expected = decode_string(raw);
    let characters = match &expected {
        Ok(characters) => characters.clone(),
        Err(_) => before_lone(raw),
    };
    let answer = match expected {
        Err(_) => Decoded::Lone,
        Ok(_) if characters.len() > room => Decoded::Short,
        Ok(_) => Decoded::Count(characters.len()),
    };
    let mut left = characters;
    left.resize(room, BLANK);
    let mut out = vec![BLANK; room];
    let found = probe::decode(raw, &mut out);
    assert!(
        found == answer && out == left,
        "the proved decoder answers {found:?} and leaves {out:?}, the second {answer:?} and \
         {left:?}, of {}",
        hexadecimal(raw)
    );
}

/// The characters before the first lone surrogate: those of the longest part
/// that is a string without one.
fn before_lone(raw: &[u8]) -> Vec<u32> {
    let parts = (0..raw.len()).rev().map(|end| &raw[..end]);
    let sound = parts.filter(|part| is_string(part));
    let mut decoded = sound.filter_map(|part| decode_string(part).ok());
    decoded.next().expect("no bytes are a string")
}

/// Only of such bytes does the decoders' order say anything.
fn is_string(raw: &[u8]) -> bool {
    second::scan(&[b"\"", raw, b"\""].concat()) == Scan::Whole
}

/// Compares the writers, and has both decoders read what was written.
fn compare_writers(characters: &[u32]) {
    let mut expected = Vec::new();
    write_string(characters, &mut expected);
    let mut out = vec![b'~'; expected.len() + 3];
    let found = probe::write(characters, &mut out);
    assert!(
        found == Some(expected.len()) && out == [&expected[..], b"~~~"].concat(),
        "the proved writer answers {found:?} and leaves {}, expected {}, of {characters:?}",
        hexadecimal(&out),
        hexadecimal(&expected)
    );
    compare_decoders(&expected, characters.len());
    if let Some(shorter) = expected.len().checked_sub(1) {
        let mut out = vec![b'~'; shorter];
        assert_eq!(probe::write(characters, &mut out), None, "{characters:?}");
        assert!(out.iter().all(|&byte| byte == b'~'), "{characters:?}");
    }
}

#[test]
fn every_character_agrees() {
    for number in spread(0..=0x10_FFFF) {
        let Some(character) = char::from_u32(number) else {
            continue;
        };
        compare_writers(&[number]);
        if !matches!(character, '\0'..='\u{1F}' | '"' | '\\') {
            compare_decoders(character.encode_utf8(&mut [0; 4]).as_bytes(), 1);
        }
    }
}

#[test]
fn every_escape_agrees() {
    for unit in spread(0..=0xFFFF) {
        compare_decoders(format!("\\u{unit:04x}").as_bytes(), 1);
        compare_decoders(format!("\\u{unit:04X}.").as_bytes(), 2);
    }
    for letter in b"\"\\/bfnrt" {
        compare_decoders(&[b'\\', *letter], 1);
    }
}

/// Halves of pairs beside one another, from the edges of their ranges.
#[test]
fn pairs_of_surrogates_agree() {
    let units = [
        "\\ud800", "\\uDBFF", "\\udc00", "\\uDFFF", "\\ud7ff", "\\ue000", "\\n", "u", "é", "",
    ];
    for first in units {
        for second in units {
            for third in units {
                compare_decoders(format!("{first}{second}{third}").as_bytes(), 3);
            }
        }
    }
}

#[test]
fn generated_strings_agree() {
    let mut random = Random::new(5);
    let pieces = [
        "a",
        "Object",
        "/",
        "\\/",
        "\\\"",
        "\\\\",
        "\\n",
        "\\t",
        "é",
        "語",
        "𝄞",
        "\u{7F}",
        "\\u00e9",
        "\\u0000",
        "\\uFFFF",
        "\\ud834\\udd1e",
        "\\uDBFF\\uDFFF",
    ];
    for _ in 0..share(40_000) {
        let count = random.below(30);
        let mut raw: String = (0..count).map(|_| random.word(&pieces)).collect();
        if random.chance(1, 5) {
            raw += random.word(&["\\ud800", "\\udc00", "\\ud834\\n"]);
            raw += random.word(&pieces);
        }
        let room = random.below(2 * count + 2);
        compare_decoders(raw.as_bytes(), room);
        if let Ok(characters) = decode_string(raw.as_bytes()) {
            compare_writers(&characters);
        }
    }
}
