//! Walking a part of a log: every line goes to a room, and the refused ones are
//! counted. A line of any length takes no more memory than a record may have.

use crate::trouble::Trouble;
use muckposy::{Refusal, Room};
use std::collections::BTreeMap;
use std::fmt;
use std::io::{self, BufRead, Read};

/// One byte more than a record may have is enough to refuse it.
const LINE: u64 = 8_193;

/// Refusals below this one are the policy's or the room's, and end a walk.
const FIRST_OF_RECORDS: u32 = 7;

/// What a part of a log came to.
#[derive(Debug, Clone, Default, PartialEq, Eq)]
pub struct Walked {
    pub room: Room,
    /// How many records were refused, by the refusal's number.
    pub refused: BTreeMap<u32, u64>,
}

/// Walks a part of a log. Empty lines are skipped, and the last line may lack
/// its end.
pub fn walk(policy: &[u8], mut part: impl BufRead) -> Result<Walked, Trouble> {
    let mut walked = Walked::default();
    let mut line = Vec::new();
    while read_line(&mut part, &mut line)? {
        if line.is_empty() {
            continue;
        }
        match walked.room.feed(policy, &line) {
            Ok(_) => {}
            Err(Refusal { number, .. }) if number >= FIRST_OF_RECORDS => {
                *walked.refused.entry(number).or_default() += 1;
            }
            Err(refusal) => return Err(refusal.into()),
        }
    }
    Ok(walked)
}

impl Walked {
    /// Takes in what another part came to.
    pub fn join(&mut self, policy: &[u8], other: &Walked) -> Result<(), Refusal> {
        self.room.join(policy, &other.room)?;
        for (number, count) in &other.refused {
            *self.refused.entry(*number).or_default() += count;
        }
        Ok(())
    }
}

/// How many records were refused, a line for each number, with its meaning.
impl fmt::Display for Walked {
    fn fmt(&self, to: &mut fmt::Formatter<'_>) -> fmt::Result {
        for (&number, &count) in &self.refused {
            let records = if count == 1 { "record" } else { "records" };
            let meaning = Refusal { number, place: 0 }.reason().meaning();
            writeln!(to, "{count} {records} refused by {number}: {meaning}")?;
        }
        Ok(())
    }
}

/// The next line without its end, an overlong one cut; false behind the last.
fn read_line(part: &mut impl BufRead, line: &mut Vec<u8>) -> io::Result<bool> {
    line.clear();
    let read = part.by_ref().take(LINE).read_until(b'\n', line)?;
    if line.last() == Some(&b'\n') {
        line.pop();
    } else if read as u64 == LINE {
        part.skip_until(b'\n')?;
    }
    Ok(read > 0)
}
