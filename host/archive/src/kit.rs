//! `rt`, which proves and builds.

use std::env;
use std::io::ErrorKind;
use std::path::{Path, PathBuf};
use std::process::Command;

/// The command of the Rattle kit, and which kit it is.
#[derive(Debug, Clone)]
pub struct Kit {
    pub command: PathBuf,
    pub version: String,
}

impl Kit {
    /// The one on PATH, if there is one. A new one in its place runs the build script
    /// again.
    pub fn on_path() -> Result<Option<Kit>, String> {
        println!("cargo:rerun-if-env-changed=RATTLE_HOME");
        let folders = env::var_os("PATH").unwrap_or_default();
        let mut files = env::split_paths(&folders).map(|folder| folder.join("rt"));
        if let Some(file) = files.find_map(|file| file.canonicalize().ok()) {
            println!("cargo:rerun-if-changed={}", file.display());
        }
        Kit::called(Path::new("rt"))
    }

    /// The kit of this command, if there is such a command.
    pub fn called(command: &Path) -> Result<Option<Kit>, String> {
        let asked = match Command::new(command).arg("version").output() {
            Err(error) if error.kind() == ErrorKind::NotFound => return Ok(None),
            other => other.map_err(|error| format!("`rt` could not be started: {error}"))?,
        };
        if !asked.status.success() {
            let said = String::from_utf8_lossy(&asked.stderr);
            return Err(format!("`rt version` failed ({}): {said}", asked.status));
        }
        let version = String::from_utf8_lossy(&asked.stdout).trim().to_string();
        let command = command.to_path_buf();
        Ok(Some(Kit { command, version }))
    }
}

#[cfg(test)]
mod tests {
    use super::*;
    use crate::trial::Folder;

    #[test]
    fn which_kit_it_is() {
        let folder = Folder::new();
        let rt = folder.script("rt", "[ \"$1\" = version ] && echo some kit 7");
        let kit = Kit::called(&rt).unwrap().expect("a command");
        assert_eq!((kit.command, kit.version), (rt, "some kit 7".to_string()));
    }

    #[test]
    fn none_and_a_broken_one() {
        let folder = Folder::new();
        assert!(Kit::called(&folder.path().join("rt")).unwrap().is_none());
        let broken = folder.script("rt", "echo nothing for this machine >&2; exit 2");
        let words = Kit::called(&broken).unwrap_err();
        assert!(words.contains("nothing for this machine"), "{words}");
    }
}
