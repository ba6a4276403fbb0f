//! The proved text layer behind safe functions, with the types of the second
//! implementation where it has them, so that answers are compared by `==`.
//!
//! For tests and measurements only; the product does not link this.

#![deny(unsafe_code)]

mod linked;

use linked::Answer;
use second::Scan;

/// What the proved scan says of a text.
pub fn scan(text: &[u8]) -> Scan {
    let answer = linked::scan(text);
    match answer.which {
        0 => Scan::Whole,
        1 => Scan::Breaks(answer.number),
        2 => Scan::TooDeep,
        _ => answer.is_unknown(),
    }
}

/// What the proved decoder says of a string's bytes.
#[derive(Debug, Clone, Copy, PartialEq, Eq)]
pub enum Decoded {
    /// So many characters, all of which were written.
    Count(usize),
    /// A surrogate escape has no partner; what stands before it was written as
    /// far as the room goes.
    Lone,
    /// There are more characters than the room holds; it is full.
    Short,
}

/// Decodes the bytes between two quotes to the beginning of the room.
pub fn decode(raw: &[u8], out: &mut [u32]) -> Decoded {
    let answer = linked::decode(raw, out);
    match answer.which {
        0 => Decoded::Count(answer.number),
        1 => Decoded::Lone,
        2 => Decoded::Short,
        _ => answer.is_unknown(),
    }
}

/// Writes characters as they stand between the quotes in the written form, and
/// says how many bytes that took; none, and nothing, where they do not fit.
pub fn write(characters: &[u32], out: &mut [u8]) -> Option<usize> {
    let answer = linked::write(characters, out);
    match answer.which {
        0 => Some(answer.number),
        1 => None,
        _ => answer.is_unknown(),
    }
}

impl Answer {
    fn is_unknown(&self) -> ! {
        unreachable!("the contracts name no answer {}", self.which)
    }
}
