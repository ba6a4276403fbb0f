//! An archive that a variable names: then neither `rt` nor the sources are needed.

use std::env;
use std::fs::File;
use std::io::Read;
use std::path::{Path, PathBuf};

/// Names an archive of [`LIBRARY`].
pub const VARIABLE: &str = "MUCKPOSY_ARCHIVE";

/// The one library that is handed to other builds; the others are for tests.
pub const LIBRARY: &str = "refine";

/// What every archive begins with.
const MAGIC: &[u8] = b"!<arch>\n";

/// The archive that is named for this library.
pub fn named(library: &str) -> Option<PathBuf> {
    if library != LIBRARY {
        return None;
    }
    println!("cargo:rerun-if-env-changed={VARIABLE}");
    let file = env::var_os(VARIABLE).filter(|name| !name.is_empty());
    file.map(PathBuf::from)
}

/// The file that is named, if it is an archive.
pub fn checked(file: &Path) -> Result<PathBuf, String> {
    let trouble = |what: &str| format!("{VARIABLE} names {}, {what}", file.display());
    if file.is_relative() {
        return Err(trouble("which begins with no `/`: name its whole path"));
    }
    println!("cargo:rerun-if-changed={}", file.display());
    let mut first = Vec::new();
    File::open(file)
        .and_then(|opened| opened.take(MAGIC.len() as u64).read_to_end(&mut first))
        .map_err(|error| trouble(&format!("which cannot be read: {error}")))?;
    if first != MAGIC {
        return Err(trouble("which is no archive"));
    }
    Ok(file.to_path_buf())
}

/// What is missing, and what to do about it, in one line.
pub fn ways_out(library: &str, what: &str) -> String {
    let prove = "install the Rattle kit, so that `rt` is on PATH, and build inside the repository";
    if library == LIBRARY {
        return format!(
            "the proved archive is missing: {what}. Set {VARIABLE} to the whole path of a prebuilt one \
             (`lib/libmuckposy.a` of what `./dist` makes), or {prove}."
        );
    }
    format!("the proved archive of {library} is missing: {what}. To have it made, {prove}.")
}

#[cfg(test)]
mod tests {
    use super::*;
    use crate::trial::Folder;

    #[test]
    fn archives() {
        let folder = Folder::new();
        for (name, bytes) in [("empty.a", &b"!<arch>\n"[..]), ("long.a", b"!<arch>\nx")] {
            let file = folder.file(name, bytes);
            assert_eq!(checked(&file), Ok(file));
        }
    }

    #[test]
    fn what_is_no_archive() {
        let folder = Folder::new();
        let text = folder.file("text", b"!<arch> and on");
        let short = folder.file("short", b"!<arc");
        for (file, what) in [
            (text.as_path(), "is no archive"),
            (&short, "is no archive"),
            (&folder.path().join("none"), "cannot be read"),
            (folder.path(), "cannot be read"),
            (Path::new("some/libmuckposy.a"), "whole path"),
        ] {
            let words = checked(file).unwrap_err();
            let named = format!("{VARIABLE} names {}, ", file.display());
            assert!(words.starts_with(&named) && words.contains(what), "{words}");
        }
    }

    #[test]
    fn for_one_library_alone() {
        let words = ["refine", "text_probe"].map(|library| ways_out(library, "it is not there"));
        assert!(words[0].contains(VARIABLE), "{words:?}");
        assert!(!words[1].contains(VARIABLE), "{words:?}");
        assert!(words.iter().all(|words| !words.contains('\n')), "{words:?}");
        assert_eq!(named("text_probe"), None);
    }
}
