//! The archives that were built, by the key of what they were made from. They stand
//! in one folder beside the package `archive`, for the builds of every profile and
//! of every package.

use crate::proving::Proving;
use crate::teller::Teller;
use std::fs::{self, File, TryLockError};
use std::io;
use std::path::{Path, PathBuf};
use std::process;

/// The folder of archives.
#[derive(Debug, Clone)]
pub struct Kept {
    folder: PathBuf,
}

impl Kept {
    /// The folder of the packages that this one stands among.
    pub fn of_host() -> Kept {
        let own = Path::new(env!("CARGO_MANIFEST_DIR"));
        let host = own.parent().expect("the package stands in a folder");
        Kept::in_folder(host.join("target/archives"))
    }

    pub fn in_folder(folder: PathBuf) -> Kept {
        Kept { folder }
    }

    /// The archive of the sources as they stand; it is made if it is not there.
    /// Build scripts run side by side, and `rt` writes below the root: one of them
    /// proves, and the others find what it made.
    pub fn find_or_make(&self, proving: &Proving, teller: &Teller) -> Result<PathBuf, String> {
        let found = self.archive(proving.library(), &proving.key()?);
        if found.is_file() {
            return Ok(found);
        }
        let list = proving.list();
        let _turn = turn(&list, teller).map_err(|error| cannot(&list, "locked", &error))?;
        let key = proving.key()?;
        let found = self.archive(proving.library(), &key);
        if found.is_file() {
            return Ok(found);
        }
        self.make(proving, &key, teller)
    }

    fn archive(&self, library: &str, key: &str) -> PathBuf {
        self.folder.join(format!("{library}-{key}.a"))
    }

    /// Proves and builds, and keeps a copy; it has its name once it is whole.
    fn make(&self, proving: &Proving, key: &str, teller: &Teller) -> Result<PathBuf, String> {
        let folder = &self.folder;
        fs::create_dir_all(folder).map_err(|error| cannot(folder, "made", &error))?;
        let library = proving.library();
        let built = proving.run(&folder.join(format!("{library}.log")), teller)?;
        if proving.key()? != key {
            return Err(format!(
                "the sources of {library} were changed while they were proved: build again"
            ));
        }
        let part = folder.join(format!(".{library}-{}.part", process::id()));
        fs::copy(&built, &part).map_err(|error| cannot(&built, "copied", &error))?;
        let whole = self.archive(library, key);
        fs::rename(&part, &whole).map_err(|error| cannot(&whole, "written", &error))?;
        Ok(whole)
    }
}

fn cannot(path: &Path, what: &str, error: &io::Error) -> String {
    format!("{} could not be {what}: {error}", path.display())
}

/// Held until it is dropped, by one process at a time.
fn turn(list: &Path, teller: &Teller) -> io::Result<File> {
    let file = File::open(list)?;
    match file.try_lock() {
        Ok(()) => {}
        Err(TryLockError::WouldBlock) => {
            teller.tell("waiting for another build that proves");
            file.lock()?;
        }
        Err(TryLockError::Error(error)) => return Err(error),
    }
    Ok(file)
}

#[cfg(test)]
mod tests {
    use super::*;
    use crate::kit::Kit;
    use crate::repository::Repository;
    use crate::trial::{calls, Folder, PROVES};

    fn kit(folder: &Folder, script: &str) -> Kit {
        let command = folder.script("rt", script);
        let version = "a kit".to_string();
        Kit { command, version }
    }

    /// What is kept of `middle`, or why nothing is.
    fn kept(folder: &Folder, kit: &Kit) -> Result<PathBuf, String> {
        let repository = Repository::above(folder.path()).unwrap();
        let proving = Proving::new(&repository, kit, "middle");
        let kept = Kept::in_folder(folder.path().join("kept"));
        kept.find_or_make(&proving, &Teller::silent())
    }

    #[test]
    fn proved_once_for_each_state() {
        let folder = Folder::repository();
        let kit = kit(&folder, PROVES);
        let first = kept(&folder, &kit).unwrap();
        assert_eq!(fs::read(&first).unwrap(), b"!<arch>\nmiddle_c\n");
        assert_eq!(kept(&folder, &kit), Ok(first.clone()));
        assert_eq!(calls(&folder), 1);
        folder.file("crates/low/src/lib.rt", b"lower");
        let second = kept(&folder, &kit).unwrap();
        assert_ne!(first, second);
        assert_eq!(calls(&folder), 2);
        // As it was before.
        folder.file("crates/low/src/lib.rt", b"low");
        assert_eq!(kept(&folder, &kit), Ok(first));
        assert_eq!(calls(&folder), 2);
    }

    #[test]
    fn one_at_a_time() {
        let folder = Folder::repository();
        let kit = kit(&folder, &format!("sleep 1; {PROVES}"));
        let both = std::thread::scope(|scope| {
            let build = || scope.spawn(|| kept(&folder, &kit).unwrap());
            [build(), build()].map(|build| build.join().unwrap())
        });
        assert_eq!(both[0], both[1]);
        assert_eq!(calls(&folder), 1);
    }

    #[test]
    fn sources_that_change_meanwhile() {
        let folder = Folder::repository();
        let edits = format!("{PROVES}\necho more >> ../low/src/lib.rt");
        let words = kept(&folder, &kit(&folder, &edits)).unwrap_err();
        assert!(words.contains("changed while they were proved"), "{words}");
        assert_eq!(calls(&folder), 1);
    }

    #[test]
    fn a_proof_that_fails_leaves_nothing() {
        let folder = Folder::repository();
        let fails = kit(&folder, "echo logic=not-proved; exit 1");
        let words = kept(&folder, &fails).unwrap_err();
        assert!(words.contains("logic=not-proved"), "{words}");
        let names = fs::read_dir(folder.path().join("kept")).unwrap();
        let names: Vec<_> = names.map(|entry| entry.unwrap().file_name()).collect();
        assert_eq!(names, ["middle.log"]);
    }
}
