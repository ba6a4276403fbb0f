//! Folders for tests: a small repository, and commands that stand for `rt`.

use std::fs;
use std::path::{Path, PathBuf};
use std::process::{self, Command};
use std::sync::atomic::{AtomicUsize, Ordering};

/// An `rt` that counts its calls and writes the archive of the crate in whose folder
/// it is called, as if that crate and `low` had been proved now and others before.
pub const PROVES: &str = r#"
[ "$1" = lib ] || exit 2
echo call >> ../../calls
name=${PWD##*/}
for each in low "$name"; do
    echo "rt: chose --jobs 2 for $each" >&2
    echo "library std: modules loaded=2 checked=0"
    echo "crate $each: modules loaded=0 checked=5"
    echo 'logic=proved functions=3'
done
mkdir -p out
{ echo '!<arch>'; echo "$name"; } > "out/lib$name.a"
"#;

/// How often [`PROVES`] was called at a folder's root.
pub fn calls(folder: &Folder) -> usize {
    let calls = fs::read_to_string(folder.path().join("calls"));
    calls.map_or(0, |calls| calls.lines().count())
}

/// A folder of its own for a test, removed with it.
#[derive(Debug)]
pub struct Folder {
    path: PathBuf,
}

impl Folder {
    pub fn new() -> Folder {
        static NEXT: AtomicUsize = AtomicUsize::new(0);
        let number = NEXT.fetch_add(1, Ordering::Relaxed);
        let name = format!("muckposy-archive-{}-{number}", process::id());
        let path = std::env::temp_dir().join(name);
        fs::create_dir(&path).expect("a folder for the test");
        Folder { path }
    }

    /// Three crates, one above the other, of which the highest exports its functions;
    /// those of the one in the middle are exported by a crate of their own.
    pub fn repository() -> Folder {
        let folder = Folder::new();
        let list = "# NAME: DEP ..\nlow:\nmiddle: low # and no more\n\
                    middle_c staticlib: middle\ntop staticlib: middle io\n";
        folder.file("crates.txt", list.as_bytes());
        for name in ["low", "middle", "middle_c", "top"] {
            folder.file(&format!("crates/{name}/src/lib.rt"), name.as_bytes());
        }
        folder
    }

    pub fn path(&self) -> &Path {
        &self.path
    }

    pub fn file(&self, name: &str, bytes: &[u8]) -> PathBuf {
        let path = self.path.join(name);
        fs::create_dir_all(path.parent().expect("a file stands in a folder")).unwrap();
        fs::write(&path, bytes).expect("the file is written");
        path
    }

    /// A command of the shell. Another process writes it: a file that this one has
    /// open for writing could not be run while a test beside it starts a command.
    pub fn script(&self, name: &str, text: &str) -> PathBuf {
        let path = self.path.join(name);
        let write = r#"printf '#!/bin/sh\n%s\n' "$1" > "$0" && chmod +x "$0""#;
        let mut shell = Command::new("sh");
        let written = shell.args(["-c", write]).arg(&path).arg(text).status();
        assert!(written.expect("a shell").success());
        path
    }
}

impl Drop for Folder {
    fn drop(&mut self) {
        let _ = fs::remove_dir_all(&self.path);
    }
}
