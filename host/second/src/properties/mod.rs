//! What must hold of every implementation, tried on generated cases.
//!
//! Each check answers what went wrong, with enough to see the case again.

mod damaged;
mod programs;
mod rows;
mod scans;
mod sound;

pub use programs::program_agrees;
pub use rows::damaged_rooms_are_refused;
pub use scans::scans_agree;

use crate::generate::random::Random;
use crate::implementation::Implementation;
use crate::limits::RESULT_BYTES;
use crate::model::Expected;
use crate::Refusal;

pub type Check = Result<(), String>;

/// Runs all that is true of any implementation, whatever its rows look like,
/// on the cases of one seed.
pub fn check_seed(implementation: &dyn Implementation, seed: u64) -> Check {
    let mut random = Random::new(seed);
    let checks = sound::check(implementation, &mut random)
        .and_then(|()| damaged::check(implementation, &mut random));
    checks.map_err(|trouble| format!("seed {seed}: {trouble}"))
}

/// Runs also what is this crate's own: its JSON scan, its rows, its program.
pub fn check_second(seed: u64) -> Check {
    check_seed(&crate::implementation::Second, seed)?;
    let mut random = Random::new(!seed);
    let checks = scans_agree(&mut random)
        .and_then(|()| damaged_rooms_are_refused(&mut random))
        .and_then(|()| program_agrees(&mut random));
    checks.map_err(|trouble| format!("seed {seed}: {trouble}"))
}

fn ensure(holds: bool, trouble: impl FnOnce() -> String) -> Check {
    if holds {
        Ok(())
    } else {
        Err(trouble())
    }
}

fn show(text: &[u8]) -> String {
    text.escape_ascii().to_string()
}

/// What outputs hold before a call, so that any byte written is noticed.
const UNTOUCHED: u8 = 0xA5;

type Write<'a> = &'a dyn Fn(&mut [u8]) -> Result<usize, Refusal>;

/// Calls an operation that writes, and checks that it wrote exactly this or
/// was refused by exactly this number, and touched nothing else.
fn writes(what: &str, write: Write, expected: &Expected) -> Check {
    let found = written(what, write)?;
    let (same, length) = match (&found, expected) {
        (Ok(found), Expected::Written(text)) => (found == text.as_bytes(), text.len()),
        (Err(refusal), Expected::Refused(number)) => (refusal.number == *number, 0),
        _ => (false, 0),
    };
    let found = found.map(|text| show(&text));
    ensure(same, || {
        format!("{what}: expected {expected:?}, found {found:?}")
    })?;
    if length == 0 {
        return Ok(());
    }
    let mut exact = vec![UNTOUCHED; length];
    let fits = write(&mut exact) == Ok(length);
    ensure(fits, || format!("{what}: does not fit its own length"))?;
    let mut short = vec![UNTOUCHED; length - 1];
    let refused = write(&mut short) == Err(Refusal::OUTPUT_TOO_SHORT);
    let untouched = short.iter().all(|&byte| byte == UNTOUCHED);
    ensure(refused && untouched, || {
        format!("{what}: one byte less is not refused cleanly")
    })
}

/// The bytes that an operation writes into an output with room to spare.
fn written(what: &str, write: Write) -> Result<Result<Vec<u8>, Refusal>, String> {
    let mut output = vec![UNTOUCHED; RESULT_BYTES + 7];
    let answer = write(&mut output);
    let kept = output.split_off(*answer.as_ref().unwrap_or(&0));
    let untouched = kept.iter().all(|&byte| byte == UNTOUCHED);
    ensure(untouched, || {
        format!("{what}: touched bytes behind the result")
    })?;
    Ok(answer.map(|_| output))
}
