//! Rooms that were fed and then changed: refused by 6 exactly where no content
//! of this policy's room is left, and else taken for what they hold.
//!
//! What is expected is asked of the second implementation, which is handed the
//! same contents in its own encoding; numbers that are no row at all have no
//! contents to be handed.

use crate::contents::every_kind;
use crate::encoding::ROW;
use crate::spoiling::{changed, OTHERS};
use crate::subject::{written, Subject, Write, ROOM};
use crate::tally::Tally;
use crate::texts::context_entry;
use crate::{ensure, same, shown, Check};
use second::generate::random::Random;
use second::generate::share::spread;
use second::generate::sound_case;

/// Longer policies are refused before the room is looked at.
const POLICY: usize = 16_384;

/// A room, the one it was damaged from, and their policy.
struct Damaged<'a> {
    subject: &'a Subject<'a>,
    policy: &'a [u8],
    good: &'a [u32],
    room: Vec<u32>,
}

impl Damaged<'_> {
    /// The same contents for the second implementation, if it takes them.
    fn expected(&self) -> Option<Vec<u32>> {
        let room = self.subject.translated(&self.room)?;
        let taken = second::join(self.policy, &mut vec![0; ROOM], &room);
        taken.is_ok().then_some(room)
    }

    /// Every operation with a room refuses this one by 6, or none does.
    fn judged(&self, tally: &mut Tally) -> Check {
        match self.expected() {
            Some(translated) => {
                tally.met("taken");
                self.is_taken(&translated)
            }
            None => {
                tally.met("refused");
                self.is_refused()
            }
        }
    }

    fn is_refused(&self) -> Check {
        let operations = self.subject.implementation;
        let [mut fed, mut into] = [(); 2].map(|()| self.room.clone());
        let mut from = self.good.to_vec();
        let write: Write = &|output| operations.finish(self.policy, &self.room, output);
        let found = [
            operations.feed(self.policy, b"", &mut fed).err(),
            operations.join(self.policy, &mut into, self.good).err(),
            operations.join(self.policy, &mut from, &self.room).err(),
            written(write, 100)?.err(),
        ];
        let found = found.map(|refusal| refusal.map_or(0, |refusal| refusal.number));
        same(found, [6; 4], "a room that should be refused")?;
        let kept = fed == self.room && into == self.room && from == self.good;
        ensure(kept, || "a refused call changed a room".to_owned())
    }

    /// The room is fed, joined and finished as the second implementation does it
    /// with the same contents.
    fn is_taken(&self, translated: &[u32]) -> Check {
        let operations = self.subject.implementation;
        // An empty text is refused as a record, but only after the room is.
        let mut fed = self.room.clone();
        let number = operations.feed(self.policy, b"", &mut fed).err();
        let number = number.map_or(0, |refusal| refusal.number);
        ensure(number == 8 && fed == self.room, || {
            format!("a room that should be taken: feed answers {number}")
        })?;
        let good = self.subject.translated(self.good).unwrap_or_default();
        let (mut into, mut other) = (self.room.clone(), translated.to_vec());
        let expected = second::join(self.policy, &mut other, &good);
        let found = operations.join(self.policy, &mut into, self.good);
        same(found, expected, "join")?;
        let joined = self.subject.translated(&into);
        ensure(joined == Some(other), || "joined rooms differ".to_owned())?;
        let found = self.subject.finished(self.policy, &self.room)?;
        let expected = Subject::second().finished(self.policy, translated)?;
        same(found, expected, "finish")
    }
}

/// One number, or several, changed in the room of a generated log, in so many
/// ways.
pub fn check(subject: &Subject, seed: u64, ways: usize, tally: &mut Tally) -> Check {
    let mut random = Random::new(seed);
    let case = sound_case(&mut random);
    if case.policy.len() > POLICY {
        return Ok(());
    }
    let mut room = vec![0; ROOM];
    for (_, record) in &case.records {
        // A refused record leaves the room as it was.
        let _ = subject.implementation.feed(&case.policy, record, &mut room);
    }
    for _ in 0..ways {
        let changed = changed(&room, subject.encoding, &mut random);
        let checked = check_room(subject, &case.policy, &room, changed, tally);
        checked.map_err(|trouble| format!("seed {seed}: {trouble}"))?;
    }
    Ok(())
}

/// A room of a policy that is read, and what was made of it.
pub fn check_room(
    subject: &Subject,
    policy: &[u8],
    good: &[u32],
    room: Vec<u32>,
    tally: &mut Tally,
) -> Check {
    let damaged = Damaged {
        subject,
        policy,
        good,
        room,
    };
    damaged.judged(tally).map_err(|trouble| {
        let places = differences(good, &damaged.room);
        format!("{trouble}; changed {places}\npolicy {}", shown(policy))
    })
}

/// The first numbers in which two rooms differ.
fn differences(room: &[u32], other: &[u32]) -> String {
    let places = (0..ROOM).filter(|&place| room[place] != other[place]);
    let told = places.map(|p| format!("{}.{}: {} to {}", p / ROW, p % ROW, room[p], other[p]));
    told.take(5).collect::<Vec<_>>().join(", ")
}

/// Every number of every row, changed in every way, where rows of each kind
/// hold something: far behind a text and in spare rows only a few are changed.
pub fn every_number(subject: &Subject, tally: &mut Tally) -> Check {
    let policy = every_kind();
    let good = filled_room(subject)?;
    // All rows of the policy, and a spare one.
    for place in spread(0..18 * ROW) {
        let column = place % ROW;
        let others: &[u32] = match column {
            0..=34 | 253..=255 => &OTHERS,
            _ => &[1, u32::MAX],
        };
        let near = [good[place].wrapping_add(1), good[place].wrapping_sub(1)];
        for &other in others.iter().chain(&near) {
            let mut room = good.clone();
            room[place] = other;
            let damaged = Damaged {
                subject,
                policy: policy.as_bytes(),
                good: &good,
                room,
            };
            let checked = damaged.judged(tally);
            checked.map_err(|trouble| {
                format!("row {}, number {column} to {other}: {trouble}", place / ROW)
            })?;
        }
    }
    Ok(())
}

/// A room of the policy with every kind of entry, fed so that most rows hold
/// something.
fn filled_room(subject: &Subject) -> Result<Vec<u32>, String> {
    let context = |l: &str, n: &str| {
        let entries = [
            ("e", "string", "*"),
            ("l", "string", l),
            ("n", "numeric", n),
        ];
        entries
            .map(|(key, kind, value)| context_entry(key, kind, value))
            .join(",")
    };
    let asks = |action: &str, resource: &str, context: &str| {
        format!(
            r#"{{"ActionNames":["{action}"],"ResourceArns":["{resource}"],"ContextEntries":[{context}]}}"#
        )
    };
    let records = [
        asks("s3:GetObject", "arn:aws:s3:::g/abc", &context("xé1", "7")),
        asks(
            "s3:GetObject",
            "arn:aws:s3:::g/abc",
            &context("xé2", "4294967303"),
        ),
        asks(
            "s3:GetObjectAcl",
            "arn:aws:s3:::g/abd",
            &context("ab", "4294967297"),
        ),
        asks("sqs:Send", "*", ""),
    ];
    subject.fed(&every_kind(), &records)
}
