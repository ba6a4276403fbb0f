//! Generated logs: an implementation against the second one record by record,
//! and against itself where a log is cut into parts.

use crate::subject::{written, Subject, Write, Written, RESULT, ROOM};
use crate::tally::Tally;
use crate::{ensure, same, shown, Check};
use second::generate::damage::damage_record;
use second::generate::random::Random;
use second::generate::{any_case, sound_case, Case};
use second::{Outcome, Refusal};
use std::ops::Range;

/// The log of a seed. Most policies are sound and some records damaged; a
/// fifth of the logs is made for being refused.
pub fn log(random: &mut Random) -> Case {
    if random.chance(1, 5) {
        return any_case(random);
    }
    let case = sound_case(random);
    let records = case.records.into_iter().map(|(_, text)| {
        if random.chance(1, 12) {
            damage_record(&text, random)
        } else {
            text
        }
    });
    Case {
        records: records.collect(),
        policy: case.policy,
    }
}

/// Walks the log of a seed and its parts, and counts what was met.
pub fn check(subject: &Subject, seed: u64, tally: &mut Tally) -> Check {
    let mut random = Random::new(seed);
    let case = log(&mut random);
    let checked = check_log(subject, &case, &mut random, tally);
    checked.map_err(|trouble| format!("seed {seed}: {trouble}"))
}

/// Walks a log and its parts, whose cuts and order are random.
pub fn check_log(subject: &Subject, log: &Case, random: &mut Random, tally: &mut Tally) -> Check {
    let walk = Walk {
        subject,
        policy: &log.policy,
        records: &log.records,
    };
    let checked = walk.all(random, tally);
    checked.map_err(|trouble| format!("{trouble}\npolicy {}", shown(&log.policy)))
}

/// Walks the logs of many seeds, up to the first trouble.
pub fn check_all(subject: &Subject, seeds: Range<u64>) -> Result<Tally, String> {
    let mut tally = Tally::default();
    for seed in seeds {
        check(subject, seed, &mut tally)?;
    }
    Ok(tally)
}

struct Walk<'a> {
    subject: &'a Subject<'a>,
    policy: &'a [u8],
    records: &'a [Vec<u8>],
}

impl Walk<'_> {
    fn all(&self, random: &mut Random, tally: &mut Tally) -> Check {
        let room = self.beside_second(tally)?;
        let finished = self.subject.finished(self.policy, &room)?;
        self.count(&room, &finished, tally);
        self.in_parts(&room, &finished, random)
    }

    /// Every record is fed to both, and both rooms come to hold the same; then
    /// both finish and restate alike. The subject's room is given back.
    fn beside_second(&self, tally: &mut Tally) -> Result<Vec<u32>, String> {
        let (mut room, mut other) = (vec![7; ROOM], vec![0; ROOM]);
        same(
            self.subject.implementation.fresh(&mut room),
            Ok(()),
            "fresh",
        )?;
        for record in self.records {
            self.feeds_alike(record, &mut room, &mut other, tally)?;
        }
        let second = Subject::second();
        let expected = second.finished(self.policy, &other)?;
        same(
            self.subject.finished(self.policy, &room)?,
            expected,
            "finish",
        )?;
        let expected = self.restated(&second)?;
        same(self.restated(self.subject)?, expected, "restate")?;
        Ok(room)
    }

    fn feeds_alike(
        &self,
        record: &[u8],
        room: &mut [u32],
        other: &mut [u32],
        tally: &mut Tally,
    ) -> Check {
        let operations = self.subject.implementation;
        let expected = second::feed(self.policy, record, other);
        let found = [
            operations.feed(self.policy, record, room),
            operations.decide(self.policy, record),
        ];
        same(found, [expected; 2], &shown(record))?;
        let translated = self.subject.translated(room);
        ensure(translated.as_deref() == Some(other), || {
            format!("the rooms differ after {}", shown(record))
        })?;
        tally.met(match expected {
            Ok(decision) => outcome_name(decision.outcome).to_owned(),
            Err(refusal) => format!("feed refused {}", refusal.number),
        });
        Ok(())
    }

    fn restated(&self, subject: &Subject) -> Result<Written, String> {
        let restate: Write = &|output| subject.implementation.restate(self.policy, output);
        written(restate, RESULT + 7)
    }

    /// A log cut into parts, which are walked apart and joined in any order,
    /// some of them twice, comes to the same room and the same result.
    fn in_parts(&self, whole: &[u32], finished: &Written, random: &mut Random) -> Check {
        let parts = self.parts(random);
        let mut order: Vec<usize> = (0..parts.len()).collect();
        order.extend((0..random.below(3)).map(|_| random.below(parts.len())));
        random.shuffle(&mut order);
        let (mut room, empty) = (vec![0; ROOM], vec![0; ROOM]);
        let expected = second::join(self.policy, &mut empty.clone(), &empty);
        for part in order {
            let lent = parts[part].clone();
            let joined = self
                .subject
                .implementation
                .join(self.policy, &mut room, &lent);
            same(joined, expected, "join")?;
            let kept = lent == parts[part];
            ensure(kept, || "join changed the other room".to_owned())?;
        }
        let alike = room == whole;
        ensure(alike, || "the parts come to another room".to_owned())?;
        let found = self.subject.finished(self.policy, &room)?;
        same(&found, finished, "finish of parts")
    }

    /// The rooms of one to five parts, some of them of no record.
    fn parts(&self, random: &mut Random) -> Vec<Vec<u32>> {
        let last = self.records.len();
        let mut cuts = vec![0, last];
        cuts.extend((0..random.below(5)).map(|_| random.below(last + 1)));
        cuts.sort_unstable();
        let parts = cuts.windows(2);
        let parts = parts.map(|ends| self.walked(&self.records[ends[0]..ends[1]]));
        parts.collect()
    }

    /// A room fed with some records; those refused change nothing, as they do in
    /// the whole log.
    fn walked(&self, records: &[Vec<u8>]) -> Vec<u32> {
        let mut room = vec![0; ROOM];
        for record in records {
            let _ = self
                .subject
                .implementation
                .feed(self.policy, record, &mut room);
        }
        room
    }

    fn count(&self, room: &[u32], finished: &Written, tally: &mut Tally) {
        tally.met("log");
        let contents = self.subject.encoding.contents(room).unwrap_or_default();
        contents
            .iter()
            .for_each(|content| tally.met(content.name()));
        tally.met(match finished {
            Ok(_) => "written".to_owned(),
            Err(Refusal { number, .. }) => format!("finish refused {number}"),
        });
    }
}

fn outcome_name(outcome: Outcome) -> &'static str {
    match outcome {
        Outcome::Allowed => "allowed",
        Outcome::ExplicitlyDenied => "explicitly denied",
        Outcome::ImplicitlyDenied => "implicitly denied",
    }
}

/// What so many logs have to meet at least, so that they try everything.
pub fn expected(logs: usize) -> Vec<(&'static str, usize)> {
    let shares = [
        ("log", 1),
        ("allowed", 1),
        ("explicitly denied", 2),
        ("implicitly denied", 1),
        ("itself", 1),
        ("single", 2),
        ("beginning", 8),
        ("number", 4),
        ("written", 3),
        ("finish refused 10", 4),
        ("finish refused 11", 200),
        ("finish refused 2", 200),
        ("finish refused 3", 40),
        ("finish refused 4", 60),
        ("finish refused 5", 100),
        ("feed refused 7", 80),
        ("feed refused 8", 6),
        ("feed refused 9", 8),
    ];
    shares.map(|(name, one_in)| (name, logs / one_in)).to_vec()
}
