//! Saved rooms, looked over and then joined.

use crate::asked::Joining;
use crate::save;
use crate::stamp;
use crate::trouble::Trouble;
use crate::walk::Walked;
use std::collections::BTreeSet;
use std::fs;
use std::io::Write;
use std::path::{Path, PathBuf};

/// What the rooms come to together. Nothing is joined before all of them have
/// been counted and their stamps compared.
pub fn gather(asked: &Joining, policy: &[u8], errors: &mut impl Write) -> Result<Walked, Trouble> {
    let rooms = &asked.rooms;
    look_for_repeats(rooms, asked.expect.is_some(), errors)?;
    for room in rooms {
        stamp::check(room, policy, asked.unstamped)?;
    }
    let mut whole = Walked::default();
    for room in rooms {
        let part = Walked {
            room: save::load(room)?,
            ..Walked::default()
        };
        let joined = whole.join(policy, &part);
        joined.map_err(|refusal| Trouble::from(refusal).with(room))?;
    }
    Ok(whole)
}

/// Needs no file, so that it is asked first.
pub fn count(asked: &Joining) -> Result<(), Trouble> {
    let given = asked.rooms.len();
    match asked.expect {
        Some(expected) if expected != given => Err(Trouble::Refused(format!(
            "rooms given: {given}, expected: {expected}; nothing was joined"
        ))),
        _ => Ok(()),
    }
}

/// A repeat does no harm, but may stand where another room should.
fn look_for_repeats(
    rooms: &[PathBuf],
    refuse: bool,
    errors: &mut impl Write,
) -> Result<(), Trouble> {
    let mut seen = BTreeSet::new();
    for room in rooms {
        if seen.insert(file(room)) {
            continue;
        }
        let why = "this room is given twice, so another may be missing";
        let twice = Trouble::Refused(why.to_owned()).with(room);
        if refuse {
            return Err(twice);
        }
        writeln!(errors, "room: warning: {twice}")?;
    }
    Ok(())
}

/// One name for each file, however its path is spelled. One that is not there
/// is missed later.
fn file(path: &Path) -> PathBuf {
    fs::canonicalize(path).unwrap_or_else(|_| path.to_path_buf())
}
