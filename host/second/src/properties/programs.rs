//! The program against the operations: it must print what feeding line by line
//! and finishing answer.

use super::{ensure, show, Check};
use crate::generate::any_case;
use crate::generate::random::Random;
use crate::limits::{RESULT_BYTES, ROOM_NUMBERS};
use crate::{decide, feed, finish, run_program, Refusal};

pub fn program_agrees(random: &mut Random) -> Check {
    let case = any_case(random);
    let lines = case.records.iter().map(|record| match random.chance(1, 8) {
        true => Vec::new(),
        false => as_line(record),
    });
    let mut log = lines.collect::<Vec<_>>().join(&b'\n');
    if random.chance(1, 2) {
        log.push(b'\n');
    }
    let mut found = Vec::new();
    let ran = run_program(Some(&case.policy), log.as_slice(), &mut found);
    let expected = expected_output(&case.policy, &log);
    ensure(ran.is_ok() && found == expected, || {
        let (found, expected) = (show(&found), show(&expected));
        format!(
            "program printed {found}, expected {expected}\npolicy {}",
            show(&case.policy)
        )
    })
}

/// A record on one line; line ends stand in it only as spaces.
fn as_line(record: &[u8]) -> Vec<u8> {
    let same_or_space = |&byte: &u8| if byte == b'\n' { b' ' } else { byte };
    record.iter().map(same_or_space).collect()
}

fn expected_output(policy: &[u8], log: &[u8]) -> Vec<u8> {
    if let Err(refusal) = decide(policy, crate::corpus::ANY_RECORD) {
        return refused(refusal).into_bytes();
    }
    let mut room = vec![0; ROOM_NUMBERS];
    let mut printed = Vec::new();
    for (number, line) in (1..).zip(log.split(|&byte| byte == b'\n')) {
        let number: u64 = number;
        if line.is_empty() {
            continue;
        }
        if let Err(refusal) = feed(policy, line, &mut room) {
            printed.extend(format!("line {number} {}", refused(refusal)).into_bytes());
        }
    }
    let mut output = [0; RESULT_BYTES];
    match finish(policy, &room, &mut output) {
        Ok(length) => {
            printed.extend_from_slice(&output[..length]);
            printed.push(b'\n');
        }
        Err(refusal) => printed.extend(refused(refusal).into_bytes()),
    }
    printed
}

fn refused(refusal: Refusal) -> String {
    format!("refused {} at {}\n", refusal.number, refusal.place)
}
