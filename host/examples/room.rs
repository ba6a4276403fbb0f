//! One part of a log to a file, and such files to the refined policy: for parts
//! that are walked by processes, on one machine or many.
//!
//! ```text
//! room POLICY ROOM < PART
//! room POLICY --join [--expect N] [--unstamped] ROOM ..
//! ```
//!
//! The first walks a part and saves its room, and before it the policy, byte for
//! byte, as the stamp ROOM.policy. Refused records are counted on standard error.
//! A room that was there before is removed before the part is walked, so that a
//! walk which fails or is killed leaves none.
//!
//! The second joins saved rooms and prints the refined policy. A room is refused
//! if its stamp is another text or, without `--unstamped`, is missing. With
//! `--expect N`, N rooms have to be given, and none of them twice.
//!
//! Exit status: 0 done, 1 refused, 2 wrong use, 3 something could not be read or
//! written.

#![forbid(unsafe_code)]

#[path = "scale/asked.rs"]
mod asked;
#[path = "scale/desk.rs"]
mod desk;
#[path = "scale/gather.rs"]
mod gather;
#[path = "scale/save.rs"]
mod save;
#[path = "scale/stamp.rs"]
mod stamp;
#[path = "scale/trouble.rs"]
mod trouble;
#[path = "scale/walk.rs"]
mod walk;

use std::io;
use std::process::ExitCode;

fn main() -> ExitCode {
    let arguments = std::env::args_os().skip(1);
    let (input, mut output) = (io::stdin().lock(), io::stdout().lock());
    let status = desk::run(arguments, input, &mut output, &mut io::stderr());
    ExitCode::from(status)
}
