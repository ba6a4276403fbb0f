//! Ways to change a room, by its numbers and by its rows.

use crate::encoding::{Content, Encoding, ROW};
use crate::subject::ROOM;
use second::generate::random::Random;

/// Rows in a room.
const ROWS: usize = ROOM / ROW;

/// What a number is changed to, besides one more and one less.
pub const OTHERS: [u32; 17] = [
    0,
    1,
    2,
    3,
    4,
    5,
    42,
    58,
    63,
    97,
    253,
    254,
    255,
    0xD800,
    0xDFFF,
    0x11_0000,
    u32::MAX,
];

/// A room under one random change.
pub fn changed(room: &[u32], encoding: Encoding, random: &mut Random) -> Vec<u32> {
    let mut room = room.to_vec();
    let filled: Vec<usize> = (0..ROWS).filter(|row| room[row * ROW] != 0).collect();
    let any = random.below(ROWS);
    let row = if filled.is_empty() || random.chance(1, 6) {
        any
    } else {
        *random.pick(&filled)
    };
    let near = (row + random.below(4)) % ROWS;
    match random.below(10) {
        0..=4 => change_number(&mut room, row, random),
        5 => swap(&mut room, row, near),
        6 => copy(&mut room, row, near),
        7 => copy(&mut room, row, any),
        8 => put(&mut room, row, &encoding.row(&any_content(random))),
        _ => edit_text(&mut room, row, random),
    }
    room
}

/// Changes a number: the mark, the length, about the text or anywhere.
fn change_number(room: &mut [u32], row: usize, random: &mut Random) {
    let length = (room[row * ROW + 1] as usize).min(ROW - 3);
    let column = match random.below(6) {
        0 => 0,
        1 => 1,
        2 => 2 + random.below(length + 1),
        3 => 2 + length,
        4 => ROW - 1,
        _ => random.below(ROW),
    };
    let number = &mut room[row * ROW + column];
    *number = match random.below(4) {
        0 => number.wrapping_add(1),
        1 => number.wrapping_sub(1),
        _ => *random.pick(&OTHERS),
    };
}

fn swap(room: &mut [u32], row: usize, other: usize) {
    for column in 0..ROW {
        room.swap(row * ROW + column, other * ROW + column);
    }
}

fn copy(room: &mut [u32], from: usize, to: usize) {
    room.copy_within(from * ROW..(from + 1) * ROW, to * ROW);
}

fn put(room: &mut [u32], row: usize, numbers: &[u32]) {
    room[row * ROW..(row + 1) * ROW].copy_from_slice(numbers);
}

/// A content that some entry may have, or none.
fn any_content(random: &mut Random) -> Content {
    let texts = [
        "",
        "*",
        "?",
        "s3",
        "s3:",
        "s3:Get",
        "s3:Get*",
        "s3:GetObject",
        "a",
        "é",
        "arn:::::",
        "arn:aws:s3:::gate/",
        "arn:aws:s3:::gate/north/",
        "arn:aws:s3:::gate/n*",
    ];
    let mut text = random.word(&texts).to_owned();
    if random.chance(1, 4) {
        let length = random.between(252, 254) - text.chars().count();
        text.extend(std::iter::repeat_n('x', length));
    }
    match random.below(5) {
        0 => Content::Itself,
        1 => Content::Number(*random.pick(&[0, 7, 10, 1 << 32, (1 << 53) - 1, u64::MAX])),
        2 => Content::beginning(&text),
        _ => Content::single(&text),
    }
}

/// Makes a held text longer, shorter, or of another kind, its length kept right.
fn edit_text(room: &mut [u32], row: usize, random: &mut Random) {
    let numbers = &mut room[row * ROW..(row + 1) * ROW];
    let length = (numbers[1] as usize).min(ROW - 2);
    match random.below(4) {
        0 if length < ROW - 2 => {
            numbers[2 + length] = *random.pick(&[97, 42, 58, 233, 0x1_0000]);
            numbers[1] += 1;
        }
        1 if length > 0 => {
            numbers[1 + length] = 0;
            numbers[1] -= 1;
        }
        2 => numbers[0] ^= 1,
        _ => {
            let at = 2 + random.below(length + 1).min(ROW - 3);
            numbers[at] = *random.pick(&[97, 42, 63, 58, 233, 0x10_FFFF, 0xD800]);
        }
    }
}
