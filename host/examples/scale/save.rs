//! Rooms as files, each with a stamp beside it.

use crate::stamp;
use crate::trouble::Trouble;
use muckposy::Room;
use std::fs::{self, File};
use std::io::{self, ErrorKind, Write};
use std::path::Path;
use std::process;

/// Removes the room that an earlier walk left, so that a walk which does not
/// come to its end leaves none.
pub fn clear(path: &Path) -> Result<(), Trouble> {
    match fs::remove_file(path) {
        Err(error) if error.kind() != ErrorKind::NotFound => Err(Trouble::from(error).with(path)),
        _ => Ok(()),
    }
}

/// Saves a room and, before it, its stamp: where there is a room, it was fed
/// under the policy beside it.
pub fn save_stamped(room: &Room, policy: &[u8], path: &Path) -> Result<(), Trouble> {
    let stamp = stamp::path(path);
    put(&stamp, policy).map_err(|error| Trouble::from(error).with(&stamp))?;
    save(room, path).map_err(|error| Trouble::from(error).with(path))
}

/// Saves a room.
pub fn save(room: &Room, path: &Path) -> io::Result<()> {
    put(path, &room.to_bytes())
}

/// Whoever looks for the file finds it whole or not at all: it is written under
/// another name beside it and then renamed.
fn put(path: &Path, bytes: &[u8]) -> io::Result<()> {
    let mut name = path.as_os_str().to_owned();
    name.push(format!(".{}.new", process::id()));
    let new = Path::new(&name);
    let saved = write(new, bytes).and_then(|()| fs::rename(new, path));
    if saved.is_err() {
        // It may not be there at all.
        let _ = fs::remove_file(new);
    }
    saved
}

fn write(path: &Path, bytes: &[u8]) -> io::Result<()> {
    let mut file = File::create(path)?;
    file.write_all(bytes)?;
    file.sync_all()
}

/// The room that was saved in a file.
pub fn load(path: &Path) -> Result<Room, Trouble> {
    let bytes = fs::read(path).map_err(|error| Trouble::from(error).with(path))?;
    let room = Room::from_bytes(&bytes);
    room.map_err(|error| Trouble::Refused(error.to_string()).with(path))
}
