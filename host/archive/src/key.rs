//! One name for one state of the sources: a digest of the kit and of every file's
//! name and bytes. When a file was written does not count.

use crate::sha256::hex;
use std::fs;
use std::io;
use std::path::{Path, PathBuf};

/// The digest of these files and folders, with all that stands in the folders.
pub fn key(root: &Path, sources: &[PathBuf], kit: &str) -> Result<String, String> {
    let mut lines = Vec::new();
    for source in sources {
        add(root, source, &mut lines)
            .map_err(|error| format!("{} cannot be read: {error}", source.display()))?;
    }
    lines.sort_unstable();
    lines.insert(0, kit.to_string());
    Ok(hex(lines.join("\n").as_bytes()))
}

/// Adds a line `NAME DIGEST` for a file, or for each file of a folder.
fn add(root: &Path, source: &Path, lines: &mut Vec<String>) -> io::Result<()> {
    if source.is_dir() {
        for entry in fs::read_dir(source)? {
            add(root, &entry?.path(), lines)?;
        }
        return Ok(());
    }
    let name = source.strip_prefix(root).unwrap_or(source);
    lines.push(format!("{name:?} {}", hex(&fs::read(source)?)));
    Ok(())
}

#[cfg(test)]
mod tests {
    use super::*;
    use crate::repository::Repository;
    use crate::trial::Folder;

    fn key_of(folder: &Folder, kit: &str) -> String {
        let repository = Repository::above(folder.path()).unwrap();
        let sources = repository.sources("middle").unwrap();
        key(repository.root(), &sources, kit).unwrap()
    }

    #[test]
    fn the_same_while_the_sources_stand() {
        let (one, other) = (Folder::repository(), Folder::repository());
        let first = key_of(&one, "kit");
        assert_eq!(first.len(), 64);
        assert_eq!(key_of(&other, "kit"), first);
        // Written again, and what the archive is not made from.
        one.file("crates/low/src/lib.rt", b"low");
        one.file("crates/low/must-fail/fault.edit", b"an edit");
        one.file("crates/top/src/lib.rt", b"another top");
        assert_eq!(key_of(&one, "kit"), first);
    }

    #[test]
    fn another_by_any_change() {
        let folder = Folder::repository();
        let mut keys = vec![key_of(&folder, "kit"), key_of(&folder, "another kit")];
        for (name, bytes) in [
            ("crates/low/src/lib.rt", &b"lower"[..]),
            ("crates/low/src/inner/more.rt", b""),
            ("crates/low/specs/Low.antt", b""),
            ("crates/middle/proofs/Middle.antt", b""),
            ("crates.txt", b"middle staticlib: low\n"),
        ] {
            folder.file(name, bytes);
            keys.push(key_of(&folder, "kit"));
        }
        let inner = folder.path().join("crates/low/src/inner");
        fs::rename(inner.join("more.rt"), inner.join("less.rt")).unwrap();
        keys.push(key_of(&folder, "kit"));
        let all = keys.len();
        keys.sort_unstable();
        keys.dedup();
        assert_eq!((keys.len(), all), (8, 8));
    }
}
