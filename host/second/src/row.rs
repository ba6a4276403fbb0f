//! How one row of a room holds its content.
//!
//! | number | content                                                          |
//! |--------|------------------------------------------------------------------|
//! | 0      | kind: 0 empty, 1 the entry itself, 2 a text, 3 a beginning, 4 a number |
//! | 1      | for 2 and 3 the length in characters, for 4 the number's low 32 bits |
//! | 2 ...  | for 2 and 3 the characters, for 4 the number's high 32 bits          |
//!
//! All numbers behind the content are zero. What a row may hold at all is the
//! candidates' matter; they leave no content two ways of being held.

use crate::candidates::{Held, Least};
use crate::limits::ROW_NUMBERS;
use std::ops::Range;

const ITSELF: u32 = 1;
const SINGLE: u32 = 2;
const BEGINNING: u32 = 3;
const NUMBER: u32 = 4;

/// First number behind kind and length.
const CONTENT: usize = 2;

/// Where the row of an entry lies in a room.
pub fn place(entry: usize) -> Range<usize> {
    entry * ROW_NUMBERS..(entry + 1) * ROW_NUMBERS
}

/// What a row holds. Rows that are no encoding read as empty here and are told
/// apart by `is_encoding`.
pub fn read(row: &[u32]) -> Held<'_> {
    let length = row[1] as usize;
    let text = row[CONTENT..].get(..length);
    match (row[0], text) {
        (ITSELF, _) => Held::Itself,
        (SINGLE, Some(text)) => Held::Single(text),
        (BEGINNING, Some(text)) => Held::Beginning(text),
        (NUMBER, _) => Held::Number(u64::from(row[1]) | u64::from(row[2]) << 32),
        _ => Held::Empty,
    }
}

/// Whether a row is what writing its content leaves.
pub fn is_encoding(row: &[u32]) -> bool {
    let mut again = [0; ROW_NUMBERS];
    write(&mut again, read(row));
    row == again
}

/// Whether a row, or several in a row, are all zero.
pub fn is_empty(rows: &[u32]) -> bool {
    rows.iter().fold(0, |bits, &number| bits | number) == 0
}

pub fn write(row: &mut [u32], held: Held) {
    row.fill(0);
    match held {
        Held::Empty => {}
        Held::Itself => row[0] = ITSELF,
        Held::Single(text) => write_text(row, SINGLE, text),
        Held::Beginning(text) => write_text(row, BEGINNING, text),
        Held::Number(number) => {
            row[0] = NUMBER;
            row[1] = number as u32;
            row[2] = (number >> 32) as u32;
        }
    }
}

fn write_text(row: &mut [u32], kind: u32, text: &[u32]) {
    row[0] = kind;
    row[1] = text.len() as u32;
    row[CONTENT..CONTENT + text.len()].copy_from_slice(text);
}

/// Changes a row to the least candidate of its own content and another.
pub fn settle(row: &mut [u32], other: Held, least: Least) {
    match least {
        Least::First => {}
        Least::Second => write(row, other),
        Least::Itself => write(row, Held::Itself),
        Least::Shared(length) => {
            row[0] = BEGINNING;
            row[1] = length as u32;
            row[CONTENT + length..].fill(0);
        }
    }
}
