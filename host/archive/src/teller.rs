//! Lines that are seen while a build runs. Cargo keeps what a build script prints to
//! itself, so they go to cargo's own standard error, where that can be had.

use std::fs::File;
use std::io::{IsTerminal, Write};

/// Tells lines, or nothing.
#[derive(Debug)]
pub struct Teller {
    name: String,
    to: Option<File>,
}

impl Teller {
    /// To whoever runs the build, in the name of this package.
    pub fn of_build(name: &str) -> Teller {
        let name = name.to_string();
        let to = of_parent();
        Teller { name, to }
    }

    #[cfg(test)]
    pub fn to(name: &str, file: File) -> Teller {
        let (name, to) = (name.to_string(), Some(file));
        Teller { name, to }
    }

    #[cfg(test)]
    pub fn silent() -> Teller {
        let (name, to) = (String::new(), None);
        Teller { name, to }
    }

    /// A line that cannot be told is no trouble.
    pub fn tell(&self, words: &str) {
        let Some(mut to) = self.to.as_ref() else {
            return;
        };
        // On a terminal cargo's own line is wiped; cargo writes it again.
        let wipe = if to.is_terminal() { "\r\x1b[K" } else { "" };
        let line = format!("{wipe}{}: {words}\n", self.name);
        let _ = to.write_all(line.as_bytes());
    }
}

/// The standard error of the process that runs this one, if it is a terminal or a
/// pipe. A plain file is left alone: its owner would write over these lines.
#[cfg(target_os = "linux")]
fn of_parent() -> Option<File> {
    let parent = std::os::unix::process::parent_id();
    let path = format!("/proc/{parent}/fd/2");
    let to = File::options().append(true).open(path).ok()?;
    let plain = to.metadata().ok()?.is_file();
    (!plain).then_some(to)
}

#[cfg(not(target_os = "linux"))]
fn of_parent() -> Option<File> {
    None
}

#[cfg(test)]
mod tests {
    use super::*;
    use crate::trial::Folder;
    use std::fs;

    #[test]
    fn lines_have_the_name_of_the_package() {
        let folder = Folder::new();
        let path = folder.file("told", b"");
        let teller = Teller::to("probe", File::create(&path).unwrap());
        teller.tell("one");
        teller.tell("two");
        Teller::silent().tell("three");
        assert_eq!(
            fs::read_to_string(path).unwrap(),
            "probe: one\nprobe: two\n"
        );
    }
}
