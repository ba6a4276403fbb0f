//! An implementation under trial, and short ways to call it.

use crate::encoding::{Content, Encoding};
use crate::{ensure, Check};
use second::implementation::{Implementation, Second};
use second::Refusal;

/// Numbers in a room.
pub const ROOM: usize = 16_384;

/// No result is longer.
pub const RESULT: usize = 6_144;

/// What outputs hold before a call. Results are ASCII, so any byte that is
/// written is noticed.
const UNTOUCHED: u8 = 0xA5;

/// An implementation, and how its rows hold their contents.
#[derive(Clone, Copy)]
pub struct Subject<'a> {
    pub implementation: &'a dyn Implementation,
    pub encoding: Encoding,
}

/// Something that writes to an output.
pub type Write<'a> = &'a dyn Fn(&mut [u8]) -> Result<usize, Refusal>;

/// The written bytes, or the refusal.
pub type Written = Result<Vec<u8>, Refusal>;

impl Subject<'_> {
    /// The second implementation, which others are compared with.
    pub fn second() -> Subject<'static> {
        Subject {
            implementation: &Second,
            encoding: Encoding::LowerFirst,
        }
    }

    /// A room fed with records that have to be accepted.
    pub fn fed(&self, policy: &str, records: &[String]) -> Result<Vec<u32>, String> {
        let mut room = vec![0; ROOM];
        for record in records {
            let answer = self
                .implementation
                .feed(policy.as_bytes(), record.as_bytes(), &mut room);
            ensure(answer.is_ok(), || {
                format!("{answer:?} on {record} under {policy}")
            })?;
        }
        Ok(room)
    }

    /// What Finish writes, into an output with bytes to spare.
    pub fn finished(&self, policy: &[u8], room: &[u32]) -> Result<Written, String> {
        let finish: Write = &|output| self.implementation.finish(policy, room, output);
        written(finish, RESULT + 7)
    }

    /// What Finish writes after these records.
    pub fn refined(&self, policy: &str, records: &[String]) -> Result<Written, String> {
        let room = self.fed(policy, records)?;
        self.finished(policy.as_bytes(), &room)
    }

    /// The room with the same contents for the second implementation, if all
    /// rows are rows.
    pub fn translated(&self, room: &[u32]) -> Option<Vec<u32>> {
        self.encoding.translated(room, Encoding::LowerFirst)
    }

    /// A room that is empty but for one row.
    pub fn room_with(&self, row: usize, content: &Content) -> Vec<u32> {
        room_of(row, &self.encoding.row(content))
    }
}

/// A room that is empty but for one row's first numbers.
pub fn room_of(row: usize, numbers: &[u32]) -> Vec<u32> {
    let mut room = vec![0; ROOM];
    let start = row * crate::encoding::ROW;
    room[start..start + numbers.len()].copy_from_slice(numbers);
    room
}

/// What is written to an output of this length. A result touches the first
/// bytes only, a refusal none.
pub fn written(write: Write, length: usize) -> Result<Written, String> {
    let mut output = vec![UNTOUCHED; length];
    let answer = write(&mut output);
    let count = *answer.as_ref().unwrap_or(&0);
    ensure(count <= length, || {
        format!("{count} of {length} bytes written")
    })?;
    let behind = output.split_off(count);
    let untouched = behind.iter().all(|&byte| byte == UNTOUCHED);
    ensure(untouched, || {
        format!("bytes behind {answer:?} were touched")
    })?;
    Ok(answer.map(|_| output))
}

/// Whether a result is written as expected into an output of just its length
/// and longer ones, and refused by 12 for shorter ones.
pub fn writes(write: Write, expected: &[u8], what: &str) -> Check {
    let count = expected.len();
    for length in [count, count + 1, count + 1_000] {
        let found = written(write, length)?;
        let right = found.as_deref() == Ok(expected);
        ensure(right, || {
            let found = found.map(|bytes| crate::shown(&bytes));
            let expected = crate::shown(expected);
            format!("{what}: {found:?}, not {expected}, into {length} bytes")
        })?;
    }
    for length in [count - 1, count / 2, 0] {
        let found = written(write, length)?;
        let refused = found == Err(Refusal::OUTPUT_TOO_SHORT);
        ensure(refused, || format!("{what}: {found:?} into {length} bytes"))?;
    }
    Ok(())
}

/// A refusal that has no place.
pub fn refused(number: u32) -> Refusal {
    Refusal { number, place: 0 }
}
