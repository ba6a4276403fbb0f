//! `room` as a function over what it is given, so that tests can run it.

use crate::asked::{asked, Asked, Joining, USAGE};
use crate::trouble::{Trouble, STATUSES};
use crate::walk::walk;
use crate::{gather, save};
use muckposy::Room;
use std::ffi::OsString;
use std::fs;
use std::io::{BufRead, Write};
use std::path::Path;

/// Answers the exit status.
pub fn run(
    arguments: impl IntoIterator<Item = OsString>,
    input: impl BufRead,
    output: &mut impl Write,
    errors: &mut impl Write,
) -> u8 {
    let done = asked(arguments).and_then(|asked| match asked {
        Asked::Help => Ok(writeln!(output, "{USAGE}{STATUSES}")?),
        Asked::Walk { policy, room } => walk_input(&policy, &room, input, errors),
        Asked::Join(joining) => join(&joining, output, errors),
    });
    match done {
        Ok(()) => 0,
        Err(trouble) => {
            // Nobody is left to tell if this fails.
            let _ = writeln!(errors, "room: {trouble}");
            trouble.status()
        }
    }
}

/// The policy is read before anything is removed: whoever mixes up the two
/// paths loses nothing.
fn walk_input(
    policy: &Path,
    room: &Path,
    input: impl BufRead,
    errors: &mut impl Write,
) -> Result<(), Trouble> {
    let text = read(policy)?;
    save::clear(room)?;
    let walked = walk(&text, input).map_err(|trouble| trouble.with(Path::new("standard input")))?;
    write!(errors, "{walked}")?;
    save::save_stamped(&walked.room, &text, room)
}

fn join(
    joining: &Joining,
    output: &mut impl Write,
    errors: &mut impl Write,
) -> Result<(), Trouble> {
    gather::count(joining)?;
    let policy = read(&joining.policy)?;
    let whole = gather::gather(joining, &policy, errors)?;
    let mut line = whole.room.finish(&policy)?;
    line.push(b'\n');
    output.write_all(&line)?;
    Ok(output.flush()?)
}

/// A policy's text, if it is one: a part without records would not show it.
fn read(policy: &Path) -> Result<Vec<u8>, Trouble> {
    let text = fs::read(policy).map_err(|error| Trouble::from(error).with(policy))?;
    let tried = Room::new().join(&text, &Room::new());
    tried.map_err(|refusal| Trouble::from(refusal).with(policy))?;
    Ok(text)
}
