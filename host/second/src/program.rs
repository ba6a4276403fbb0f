//! The program: a policy, then records line by line, then the refined policy.

use crate::limits::{POLICY_BYTES, RECORD_BYTES, ROOM_NUMBERS};
use crate::operations::Desk;
use crate::refusal::Refusal;
use std::fs::File;
use std::io::{self, BufRead, Read, Write};
use std::path::Path;

/// Reads a policy file, of which one byte more than a policy may have is
/// enough to refuse it. A file that cannot be read counts as missing.
pub fn read_policy_file(path: &Path) -> Option<Vec<u8>> {
    let mut text = Vec::new();
    let file = File::open(path).ok()?;
    let enough = POLICY_BYTES as u64 + 1;
    file.take(enough).read_to_end(&mut text).ok()?;
    Some(text)
}

/// Runs the program on a policy, if there is one, and its input.
///
/// The policy is read once: the room is this function's own, so neither the
/// policy nor the room has to be looked over again for each record.
pub fn run_program(
    policy: Option<&[u8]>,
    input: impl BufRead,
    mut output: impl Write,
) -> io::Result<()> {
    match policy {
        Some(policy) => refine(policy, input, &mut output)?,
        None => writeln!(output, "no policy")?,
    }
    output.flush()
}

fn refine(policy: &[u8], mut input: impl BufRead, output: &mut impl Write) -> io::Result<()> {
    let mut desk = Desk::default();
    if let Err(refusal) = desk.read_policy(policy) {
        return print_refusal(refusal, output);
    }
    let mut room = vec![0; ROOM_NUMBERS];
    feed_lines(&mut desk, &mut room, &mut input, output)?;
    match desk.finish(&room) {
        Ok(result) => {
            output.write_all(result)?;
            output.write_all(b"\n")
        }
        Err(refusal) => print_refusal(refusal, output),
    }
}

fn print_refusal(refusal: Refusal, output: &mut impl Write) -> io::Result<()> {
    writeln!(output, "refused {} at {}", refusal.number, refusal.place)
}

fn feed_lines(
    desk: &mut Desk,
    room: &mut [u32],
    input: &mut impl BufRead,
    output: &mut impl Write,
) -> io::Result<()> {
    let mut line = Vec::with_capacity(RECORD_BYTES + 1);
    let mut number: u64 = 0;
    while read_line(input, &mut line)? {
        number += 1;
        if line.is_empty() {
            continue;
        }
        if let Err(refusal) = desk.feed(&line, room) {
            let (refused, place) = (refusal.number, refusal.place);
            writeln!(output, "line {number} refused {refused} at {place}")?;
        }
    }
    Ok(())
}

/// Reads the next line without its end, and of an overlong one no more than is
/// needed to refuse it. Answers false behind the last line.
fn read_line(input: &mut impl BufRead, line: &mut Vec<u8>) -> io::Result<bool> {
    line.clear();
    let enough = RECORD_BYTES as u64 + 1;
    let read = input.by_ref().take(enough).read_until(b'\n', line)?;
    if line.last() == Some(&b'\n') {
        line.pop();
    } else if line.len() > RECORD_BYTES {
        skip_line(input)?;
    }
    Ok(read > 0)
}

fn skip_line(input: &mut impl BufRead) -> io::Result<()> {
    loop {
        let ready = input.fill_buf()?;
        let end = ready.iter().position(|&byte| byte == b'\n');
        let (skipped, done) = match end {
            Some(end) => (end + 1, true),
            None => (ready.len(), ready.is_empty()),
        };
        input.consume(skipped);
        if done {
            return Ok(());
        }
    }
}
