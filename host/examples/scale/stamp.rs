//! Stamps: beside each saved room stands the policy under which it was fed, byte
//! for byte. A room alone does not tell, and one of another policy may fit.

use crate::trouble::Trouble;
use std::fs;
use std::io::ErrorKind;
use std::path::{Path, PathBuf};

/// ROOM.policy
pub fn path(room: &Path) -> PathBuf {
    let mut name = room.as_os_str().to_owned();
    name.push(".policy");
    PathBuf::from(name)
}

/// Refuses a room whose stamp is another text, or is missing where rooms have
/// to be stamped.
pub fn check(room: &Path, policy: &[u8], unstamped: bool) -> Result<(), Trouble> {
    let stamp = path(room);
    let why = match fs::read(&stamp) {
        Ok(text) if text == policy => return Ok(()),
        Ok(_) => "this stamp is another policy's, so its room is not joined",
        Err(error) if error.kind() != ErrorKind::NotFound => {
            return Err(Trouble::from(error).with(&stamp));
        }
        Err(_) if unstamped => return Ok(()),
        Err(_) => "this stamp is missing, so its room is not joined without --unstamped",
    };
    Err(Trouble::Refused(why.to_owned()).with(&stamp))
}
