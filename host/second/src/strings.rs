//! Strings between their quotes: from raw bytes to characters and back.
//!
//! A character is a Unicode scalar value held as a `u32`. Reading resolves the
//! JSON escapes and joins surrogate pairs; nothing is normalised.

use std::fmt;

/// A surrogate escape without its partner: fine JSON, but no character.
#[derive(Debug, Clone, Copy, PartialEq, Eq)]
pub struct LoneSurrogate;

impl fmt::Display for LoneSurrogate {
    fn fmt(&self, to: &mut fmt::Formatter<'_>) -> fmt::Result {
        to.write_str("a surrogate escape has no partner")
    }
}

impl std::error::Error for LoneSurrogate {}

/// The characters of a string, given the raw bytes between its quotes.
///
/// The bytes must come from a well-formed JSON string; on others the answer is
/// of no use, though still without a panic.
pub fn decode_string(raw: &[u8]) -> Result<Vec<u32>, LoneSurrogate> {
    let mut characters = Vec::with_capacity(raw.len());
    decode_onto(raw, &mut characters)?;
    Ok(characters)
}

/// As `decode_string`, behind what the store already holds.
pub fn decode_onto(raw: &[u8], store: &mut Vec<u32>) -> Result<(), LoneSurrogate> {
    let mut reader = Characters { raw, at: 0 };
    while let Some(character) = reader.next_character()? {
        store.push(character);
    }
    Ok(())
}

/// Whether a string reads as this ASCII text, whatever escapes it uses.
pub fn reads_as(raw: &[u8], ascii: &str) -> bool {
    let mut reader = Characters { raw, at: 0 };
    for &wanted in ascii.as_bytes() {
        if reader.next_character() != Ok(Some(u32::from(wanted))) {
            return false;
        }
    }
    reader.next_character() == Ok(None)
}

/// Writes characters as they stand between the quotes in the written form.
pub fn write_string(characters: &[u32], output: &mut Vec<u8>) {
    for &character in characters {
        write_character(character, output);
    }
}

/// Writes one character of a string in the written form.
pub fn write_character(character: u32, output: &mut Vec<u8>) {
    match character {
        0x22 | 0x5C => output.extend_from_slice(&[b'\\', character as u8]),
        0x20..=0x7E => output.push(character as u8),
        0..=0xFFFF => write_unit(character, output),
        _ => {
            let above = character - 0x1_0000;
            write_unit(0xD800 | (above >> 10) & 0x3FF, output);
            write_unit(0xDC00 | above & 0x3FF, output);
        }
    }
}

/// Writes a UTF-16 code unit as an escape.
fn write_unit(unit: u32, output: &mut Vec<u8>) {
    let digit = |shift: u32| b"0123456789abcdef"[(unit >> shift & 0xF) as usize];
    output.extend_from_slice(&[b'\\', b'u', digit(12), digit(8), digit(4), digit(0)]);
}

/// A part of a store of characters.
#[derive(Debug, Clone, Copy, PartialEq, Eq, Default)]
pub struct Span {
    start: u32,
    end: u32,
}

impl Span {
    /// From a position to the end of what the store holds by now.
    pub fn since(start: usize, store: &[u32]) -> Span {
        Span {
            start: start as u32,
            end: store.len() as u32,
        }
    }

    pub fn of(self, store: &[u32]) -> &[u32] {
        &store[self.start as usize..self.end as usize]
    }
}

struct Characters<'a> {
    raw: &'a [u8],
    at: usize,
}

impl Characters<'_> {
    fn next_character(&mut self) -> Result<Option<u32>, LoneSurrogate> {
        let Some(&first) = self.raw.get(self.at) else {
            return Ok(None);
        };
        self.at += 1;
        let character = match first {
            b'\\' => self.escaped()?,
            0x00..=0x7F => u32::from(first),
            0x80..=0xDF => self.continued(u32::from(first) & 0x1F, 1),
            0xE0..=0xEF => self.continued(u32::from(first) & 0x0F, 2),
            0xF0..=0xFF => self.continued(u32::from(first) & 0x07, 3),
        };
        Ok(Some(character))
    }

    /// Adds the low six bits of each following byte.
    fn continued(&mut self, start: u32, bytes: usize) -> u32 {
        (0..bytes).fold(start, |bits, _| bits << 6 | u32::from(self.byte()) & 0x3F)
    }

    fn escaped(&mut self) -> Result<u32, LoneSurrogate> {
        Ok(match self.byte() {
            b'b' => 0x08,
            b't' => 0x09,
            b'n' => 0x0A,
            b'f' => 0x0C,
            b'r' => 0x0D,
            b'u' => return self.escaped_unit(),
            itself => u32::from(itself),
        })
    }

    fn escaped_unit(&mut self) -> Result<u32, LoneSurrogate> {
        let unit = self.hex_unit();
        match unit {
            0xD800..=0xDBFF => self.low_half(unit),
            0xDC00..=0xDFFF => Err(LoneSurrogate),
            _ => Ok(unit),
        }
    }

    /// The pair that a high surrogate begins, if its partner follows at once.
    fn low_half(&mut self, high: u32) -> Result<u32, LoneSurrogate> {
        if self.byte() != b'\\' || self.byte() != b'u' {
            return Err(LoneSurrogate);
        }
        let low = self.hex_unit();
        if !(0xDC00..=0xDFFF).contains(&low) {
            return Err(LoneSurrogate);
        }
        Ok(0x1_0000 + ((high - 0xD800) << 10) + (low - 0xDC00))
    }

    fn hex_unit(&mut self) -> u32 {
        (0..4).fold(0, |unit, _| {
            let digit = char::from(self.byte()).to_digit(16);
            unit << 4 | digit.unwrap_or(0)
        })
    }

    fn byte(&mut self) -> u8 {
        let byte = self.raw.get(self.at).copied().unwrap_or(0);
        self.at += 1;
        byte
    }
}
