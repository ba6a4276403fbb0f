//! One input through all six operations of both implementations.

use crate::input::{Change, Input};
use crate::proved::{Proved, PROVED};
use second::generate::random::Random;
use second::implementation::{Implementation, Second};
use second::Refusal;
use std::fmt::Debug;
use trials::encoding::ROW;
use trials::subject::{written, Write, RESULT, ROOM};
use trials::tally::Tally;
use trials::{damage, logs, Check, Subject};

pub fn check(input: &Input) -> Check {
    let (policy, records) = (&input.log.policy[..], &input.log.records[..]);
    // What is chosen for an input follows from it, so that every run repeats.
    let mut random = Random::new(policy.len() as u64 ^ (records.len() as u64) << 32);
    let mut tally = Tally::default();
    logs::check_log(&PROVED, &input.log, &mut random, &mut tally)?;
    let room = walked(&Proved, policy, records);
    let other = walked(&Second, policy, records);
    outputs(policy, &room, &other, &mut random)?;
    let first = records.first().map_or(&b""[..], Vec::as_slice);
    lengths(policy, first, &mut random)?;
    let is_read = second::join(policy, &mut vec![0; ROOM], &[0; ROOM]).is_ok();
    if is_read && !input.changes.is_empty() {
        let changed = changed(&room, &input.changes);
        damage::check_room(&PROVED, policy, &room, changed, &mut tally)?;
    }
    Ok(())
}

/// A room fed with all records; those refused change nothing.
fn walked(operations: &dyn Implementation, policy: &[u8], records: &[Vec<u8>]) -> Vec<u32> {
    let mut room = vec![0; ROOM];
    for record in records {
        let _ = operations.feed(policy, record, &mut room);
    }
    room
}

/// The changed room. A number from FF000000 on copies another row instead, so
/// that rows of the right form come to stand in the wrong place.
fn changed(room: &[u32], changes: &[Change]) -> Vec<u32> {
    let mut room = room.to_vec();
    for change in changes {
        let at = change.row * ROW;
        match change.number {
            0xFF00_0000.. => {
                let from = change.number as usize % (ROOM / ROW) * ROW;
                room.copy_within(from..from + ROW, at);
            }
            number => room[at + change.column] = number,
        }
    }
    room
}

/// Results into outputs of just their length, about it and of any other.
fn outputs(policy: &[u8], room: &[u32], other: &[u32], random: &mut Random) -> Check {
    let second = Subject::second().implementation;
    let finish: [Write; 2] = [&|output| Proved.finish(policy, room, output), &|output| {
        second.finish(policy, other, output)
    }];
    let restate: [Write; 2] = [&|output| Proved.restate(policy, output), &|output| {
        second.restate(policy, output)
    }];
    for write in [finish, restate] {
        let result = written(write[1], RESULT)?;
        let exact = result.map_or(0, |bytes| bytes.len());
        let any = random.below(RESULT + 100);
        for length in [exact, exact.saturating_sub(1), exact + 1, any] {
            same([written(write[0], length)?, written(write[1], length)?])?;
        }
    }
    Ok(())
}

/// Rooms of a wrong length are refused alike, and stay as they are.
fn lengths(policy: &[u8], record: &[u8], random: &mut Random) -> Check {
    let length = *random.pick(&[0, 1, ROOM - 1, ROOM + 1, 2 * ROOM]);
    let answers = [&Proved as &dyn Implementation, &Second].map(|operations| {
        let (mut wrong, mut right) = (vec![7; length], vec![0; ROOM]);
        let numbers = [
            number(operations.fresh(&mut wrong)),
            number(operations.feed(policy, record, &mut wrong)),
            number(operations.join(policy, &mut wrong, &right)),
            number(operations.join(policy, &mut right, &wrong)),
            number(operations.finish(policy, &wrong, &mut [0; RESULT])),
        ];
        let kept = wrong == vec![7; length] && right == [0; ROOM];
        (numbers, kept)
    });
    same(answers)?;
    same([answers[0], ([1; 5], true)])
}

fn number<T>(answer: Result<T, Refusal>) -> u32 {
    answer.map_or_else(|refusal| refusal.number, |_| 0)
}

fn same<T: PartialEq + Debug>([proved, second]: [T; 2]) -> Check {
    if proved == second {
        return Ok(());
    }
    Err(format!(
        "the proved one: {proved:?}; the second: {second:?}"
    ))
}
