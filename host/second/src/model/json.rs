//! JSON byte by byte: a stack of what is still wanted, and no recursion.
//!
//! Each wanted thing either takes the next byte, possibly wanting more things
//! in its stead, or is content with nothing and leaves the byte to the one
//! below. This is the grammar read as a machine, unlike the descent of the
//! scan that it is compared with.

use crate::limits::LEVELS;
use crate::Scan;

#[derive(Debug, Clone, Copy, PartialEq, Eq)]
enum Want {
    Spaces,
    Value,
    /// The rest of a string, its closing quote included.
    StringRest,
    Escape,
    HexDigit,
    /// One byte from a range.
    Between(u8, u8),
    /// The first digit of a number's whole part.
    WholePart,
    MoreDigits,
    Fraction,
    Exponent,
    Sign,
    /// Behind an opening brace or bracket.
    FirstMember,
    FirstElement,
    /// Behind a member or element.
    NextMember,
    NextElement,
}

use Want::{
    Between, Escape, Exponent, FirstElement, FirstMember, Fraction, HexDigit, MoreDigits,
    NextElement, NextMember, Sign, Spaces, StringRest, Value, WholePart,
};

enum Take {
    /// The byte is taken; these are wanted next, the first one first.
    Byte(&'static [Want]),
    /// The byte is not taken; these are wanted instead.
    Instead(&'static [Want]),
    Break,
    Deep,
}

use Take::{Break, Byte, Deep, Instead};

/// What the scan of a text should find.
pub fn scan(text: &[u8]) -> Scan {
    // The top of the stack is its end.
    let mut wanted = vec![Spaces, Value, Spaces];
    for (place, &byte) in text.iter().enumerate() {
        loop {
            let Some(top) = wanted.pop() else {
                return Scan::Breaks(place);
            };
            match take(top, byte, levels(&wanted)) {
                Byte(next) => {
                    wanted.extend(next.iter().rev());
                    break;
                }
                Instead(next) => wanted.extend(next.iter().rev()),
                Break => return Scan::Breaks(place),
                Deep => return Scan::TooDeep,
            }
        }
    }
    match wanted.into_iter().all(is_optional) {
        true => Scan::Whole,
        false => Scan::Breaks(text.len()),
    }
}

fn is_optional(want: Want) -> bool {
    matches!(want, Spaces | MoreDigits | Fraction | Exponent | Sign)
}

/// How many lists and objects are open.
fn levels(wanted: &[Want]) -> usize {
    let open = [FirstMember, FirstElement, NextMember, NextElement];
    wanted.iter().filter(|want| open.contains(want)).count()
}

const MEMBER: &[Want] = &[
    Spaces,
    Between(b'"', b'"'),
    StringRest,
    Spaces,
    Between(b':', b':'),
    Spaces,
    Value,
    Spaces,
    NextMember,
];
const ELEMENT: &[Want] = &[Spaces, Value, Spaces, NextElement];

fn take(want: Want, byte: u8, levels: usize) -> Take {
    match (want, byte) {
        (Value, _) => take_value(byte, levels),
        (StringRest, _) => take_in_string(byte),
        (Spaces, b' ' | b'\t' | b'\n' | b'\r') => Byte(&[Spaces]),
        (Escape, b'u') => Byte(&[HexDigit, HexDigit, HexDigit, HexDigit]),
        (Escape, b'"' | b'\\' | b'/' | b'b' | b'f' | b'n' | b'r' | b't') => Byte(&[]),
        (HexDigit, b'0'..=b'9' | b'a'..=b'f' | b'A'..=b'F') => Byte(&[]),
        (Between(low, high), _) if low <= byte && byte <= high => Byte(&[]),
        (WholePart, b'0') => Byte(&[]),
        (WholePart, b'1'..=b'9') => Byte(&[MoreDigits]),
        (MoreDigits, b'0'..=b'9') => Byte(&[MoreDigits]),
        (Fraction, b'.') => Byte(&[Between(b'0', b'9'), MoreDigits]),
        (Exponent, b'e' | b'E') => Byte(&[Sign, Between(b'0', b'9'), MoreDigits]),
        (Sign, b'+' | b'-') => Byte(&[]),
        (FirstMember | NextMember, b'}') | (FirstElement | NextElement, b']') => Byte(&[]),
        (FirstMember, _) => Instead(MEMBER),
        (FirstElement, _) => Instead(ELEMENT),
        (NextMember, b',') => Byte(MEMBER),
        (NextElement, b',') => Byte(ELEMENT),
        _ if is_optional(want) => Instead(&[]),
        _ => Break,
    }
}

fn take_value(byte: u8, levels: usize) -> Take {
    const fn only(byte: u8) -> Want {
        Between(byte, byte)
    }
    match byte {
        b'{' | b'[' if levels >= LEVELS => Deep,
        b'{' => Byte(&[Spaces, FirstMember]),
        b'[' => Byte(&[Spaces, FirstElement]),
        b'"' => Byte(&[StringRest]),
        b'-' => Byte(&[WholePart, Fraction, Exponent]),
        b'0' => Byte(&[Fraction, Exponent]),
        b'1'..=b'9' => Byte(&[MoreDigits, Fraction, Exponent]),
        b't' => Byte(const { &[only(b'r'), only(b'u'), only(b'e')] }),
        b'f' => Byte(const { &[only(b'a'), only(b'l'), only(b's'), only(b'e')] }),
        b'n' => Byte(const { &[only(b'u'), only(b'l'), only(b'l')] }),
        _ => Break,
    }
}

/// The ranges are those of the syntax of UTF-8 in RFC 3629, section 4.
fn take_in_string(byte: u8) -> Take {
    const TAIL: Want = Between(0x80, 0xBF);
    match byte {
        b'"' => Byte(&[]),
        b'\\' => Byte(&[Escape, StringRest]),
        0x20..=0x7F => Byte(&[StringRest]),
        0xC2..=0xDF => Byte(&[TAIL, StringRest]),
        0xE0 => Byte(&[Between(0xA0, 0xBF), TAIL, StringRest]),
        0xE1..=0xEC | 0xEE..=0xEF => Byte(&[TAIL, TAIL, StringRest]),
        0xED => Byte(&[Between(0x80, 0x9F), TAIL, StringRest]),
        0xF0 => Byte(&[Between(0x90, 0xBF), TAIL, TAIL, StringRest]),
        0xF1..=0xF3 => Byte(&[TAIL, TAIL, TAIL, StringRest]),
        0xF4 => Byte(&[Between(0x80, 0x8F), TAIL, TAIL, StringRest]),
        _ => Break,
    }
}
