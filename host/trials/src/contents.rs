//! Refusal 6 by hand: which contents a row can have, row by row, under a policy
//! with entries of every kind.

use crate::encoding::{Content, ROW};
use crate::subject::{room_of, Subject, ROOM};
use crate::texts::*;
use crate::{ensure, same, Check};

/// The comments give the rows of the entries.
pub fn every_kind() -> String {
    let first = concat!(
        r#"{"Effect":"Allow","Action":["*","s3:Get*","s3:GetObject","s3:?et*"],"#, // 0 to 3
        r#""Resource":["*","arn:aws:s3:::g/*","arn:aws:s3:::g/a?c"],"#,            // 4 to 6
        r#""Condition":{"StringEquals":{"e":"*"},"#,                               // 7
        r#""StringLike":{"l":["*","x*","a**"]},"#,                                 // 8 to 10
        r#""NumericLessThanEquals":{"n":["10",9007199254740991]}}}"#,              // 11, 12
    );
    let second = statement_to("Deny", r#""s3:Put""#, r#""*""#); // 13, 14
    let third = statement(r#""sqs:*""#, r#""*""#); // 15, 16
    statements(&[first.to_owned(), second, third])
}

/// Rows of entries that can be held as they are.
const TEXT_ROWS: [usize; 13] = [0, 1, 2, 3, 4, 5, 6, 7, 8, 9, 10, 15, 16];

/// Rows of number entries, of Deny entries, and spare ones.
const OTHER_ROWS: [usize; 6] = [11, 12, 13, 14, 17, 63];

/// A row, and a text that it can hold.
const SINGLES: [(usize, &str); 14] = [
    (0, "s3:GetObject"),
    (0, "a-b_c.9:-_."),
    (1, "s3:GetObject"),
    (1, "s3:Get"),
    (3, "s3:Get"),
    (4, "arn:::::"),
    (5, "arn:aws:s3:::g/"),
    (5, "arn:aws:s3:::g/a*b"),
    (6, "arn:aws:s3:::g/a*c"),
    (8, ""),
    (8, "*"),
    (9, "x"),
    (9, "x𝄞"),
    (10, "a"),
];

/// A row, and a text that it cannot hold: it is illegal there, does not match
/// the entry, is the entry's only one, or stands in another kind of row.
const NO_SINGLES: [(usize, &str); 25] = [
    (0, ""),
    (0, "*"),
    (0, "s3:*"),
    (0, "s3:G?t"),
    (0, "s3"),
    (0, "s3:"),
    (0, ":Get"),
    (0, "s3:a:b"),
    (0, "s3:é"),
    (1, "s3:Put"),
    (1, "s3:Get*"),
    (2, "s3:GetObject"),
    (3, "s3:*et"),
    (4, "*"),
    (4, "arn::::"),
    (4, "north"),
    (5, "arn:aws:s3:::h/"),
    (6, "arn:aws:s3:::g/ac"),
    (7, "*"),
    (9, ""),
    (10, "b"),
    (11, "7"),
    (13, "s3:Put"),
    (14, "arn:::::"),
    (17, "x"),
];

/// Likewise of beginnings.
const BEGINNINGS: [(usize, &str); 9] = [
    (0, "s3:"),
    (0, "s3:Get"),
    (1, "s3:GetO"),
    (4, "arn:::::"),
    (5, "arn:aws:s3:::g/*"),
    (8, "a"),
    (8, "*"),
    (9, "xx"),
    (15, "sqs:S"),
];

const NO_BEGINNINGS: [(usize, &str); 23] = [
    (0, ""),
    (0, "s3"),
    (0, ":"),
    (0, "s3:a:"),
    (0, "s3:*"),
    (1, "s3:Get"),
    (1, "s3:Ge"),
    (1, "s3:PutX"),
    (1, "s3:Get?"),
    (2, "s3:GetObjectX"),
    (3, "s3:GetX"),
    (4, "arn:aws:s3"),
    (4, "*"),
    (5, "arn:aws:s3:::g/"),
    (6, "arn:aws:s3:::g/abc"),
    (7, "*x"),
    (8, ""),
    (9, "x"),
    (10, "ab"),
    (11, "1"),
    (14, "arn:::::"),
    (15, "sqs:"),
    (16, ""),
];

const MOST: u64 = (1 << 53) - 1;

/// Rows of numbers, and others.
const NUMBERS: [(usize, u64, bool); 16] = [
    (11, 0, true),
    (11, 10, true),
    (11, 11, false),
    (11, 1 << 32, false),
    (11, u64::MAX, false),
    (12, 0, true),
    (12, 1 << 32, true),
    (12, MOST, true),
    (12, MOST + 1, false),
    (12, u64::MAX, false),
    (0, 0, false),
    (2, 1, false),
    (7, 2, false),
    (8, 3, false),
    (13, 0, false),
    (20, 10, false),
];

/// Characters by their numbers, and whether there are such.
const CHARACTERS: [(u32, bool); 10] = [
    (0, true),
    (0x1F, true),
    (0xD7FF, true),
    (0xD800, false),
    (0xDFFF, false),
    (0xE000, true),
    (0x10_FFFF, true),
    (0x11_0000, false),
    (0x11_0001, false),
    (u32::MAX, false),
];

/// Each content by itself, in a room that is otherwise empty.
pub fn by_hand(subject: &Subject) -> Check {
    let policy = every_kind();
    let judge = |row: usize, content: Content, taken: bool| {
        let room = subject.room_with(row, &content);
        judged(
            subject,
            &policy,
            &room,
            taken,
            &format!("{content:?} in row {row}"),
        )
    };
    for row in TEXT_ROWS {
        judge(row, Content::Itself, true)?;
    }
    for row in OTHER_ROWS {
        judge(row, Content::Itself, false)?;
    }
    for (row, text) in SINGLES {
        judge(row, Content::single(text), true)?;
    }
    for (row, text) in NO_SINGLES {
        judge(row, Content::single(text), false)?;
    }
    for (row, text) in BEGINNINGS {
        judge(row, Content::beginning(text), true)?;
    }
    for (row, text) in NO_BEGINNINGS {
        judge(row, Content::beginning(text), false)?;
    }
    for (row, number, taken) in NUMBERS {
        judge(row, Content::Number(number), taken)?;
    }
    for (character, taken) in CHARACTERS {
        judge(8, Content::Single(vec![character]), taken)?;
        judge(8, Content::Beginning(vec![97, character]), taken)?;
    }
    Ok(())
}

/// Marks that no content has, numbers behind a content, and lengths that a row
/// has no space for.
pub fn marks_and_leavings(subject: &Subject) -> Check {
    let policy = every_kind();
    let judge = |row: usize, numbers: &[u32], taken: bool| {
        let name = format!("{:?} in row {row}", &numbers[..numbers.len().min(4)]);
        judged(subject, &policy, &room_of(row, numbers), taken, &name)
    };
    for row in 0..ROOM / ROW {
        judge(row, &[0], true)?;
        judge(row, &[0, 1], false)?;
        judge(row, &[5], false)?;
        judge(row, &[u32::MAX], false)?;
        for place in [1, 2, ROW - 2, ROW - 1] {
            let mut leavings = vec![0; ROW];
            leavings[place] = 1;
            judge(row, &leavings, false)?;
        }
    }
    for row in TEXT_ROWS {
        judge(row, &[1, 1], false)?;
        judge(row, &[1, 0, 1], false)?;
    }
    let number = subject.encoding.row(&Content::Number(7));
    judge(11, &number, true)?;
    judge(11, &[&number[..3], &[1]].concat(), false)?;
    let full = |mark: u32, length: u32| [vec![mark, length], vec![97; ROW - 2]].concat();
    judge(8, &full(2, 254), true)?;
    for mark in [2, 3] {
        judge(8, &[mark, 1, 97], true)?;
        judge(8, &[mark, 1, 97, 98], false)?;
        judge(8, &[mark, 2, 97, 0], true)?;
        judge(8, &[mark, 1, 97, 0, 1], false)?;
        for length in [253, 255, 256, 257, u32::MAX] {
            judge(8, &full(mark, length), false)?;
        }
    }
    Ok(())
}

/// Whether a room is taken by all that read rooms, or refused by 6; a join with
/// an empty one on either side leaves what it holds.
fn judged(subject: &Subject, policy: &str, room: &[u32], taken: bool, name: &str) -> Check {
    let operations = subject.implementation;
    let policy = policy.as_bytes();
    let (mut fed, mut into, mut from) = (room.to_vec(), room.to_vec(), vec![0; ROOM]);
    let found = [
        operations.join(policy, &mut into, &vec![0; ROOM]).err(),
        operations.join(policy, &mut from, room).err(),
        operations.finish(policy, room, &mut []).err(),
        // An empty text is refused as a record, but only after the room is.
        operations.feed(policy, b"", &mut fed).err(),
    ];
    let found = found.map(|refusal| refusal.map_or(0, |refusal| refusal.number));
    // No single row makes a statement whole.
    let expected = if taken { [0, 0, 10, 8] } else { [6; 4] };
    same(found, expected, name)?;
    let kept = fed == room && into == room;
    let right = from == if taken { room.to_vec() } else { vec![0; ROOM] };
    ensure(kept && right, || {
        format!("{name}: a room is not as it should be")
    })
}
