//! `rt` at work: what it prints goes to a log, and how far it is to the teller.

use crate::key;
use crate::kit::Kit;
use crate::repository::Repository;
use crate::teller::Teller;
use std::fs::File;
use std::io::{self, BufRead, BufReader, Write};
use std::path::{Path, PathBuf};
use std::process::{Command, ExitStatus, Stdio};
use std::time::Instant;

/// How many of a log's last lines are shown where `rt` fails.
const SHOWN: usize = 40;

/// One archive that `rt` can make.
#[derive(Debug, Clone, Copy)]
pub struct Proving<'a> {
    repository: &'a Repository,
    kit: &'a Kit,
    library: &'a str,
}

impl<'a> Proving<'a> {
    pub fn new(repository: &'a Repository, kit: &'a Kit, library: &'a str) -> Proving<'a> {
        Proving {
            repository,
            kit,
            library,
        }
    }

    pub fn library(&self) -> &str {
        self.library
    }

    pub fn list(&self) -> PathBuf {
        self.repository.list()
    }

    /// The key of the sources as they stand.
    pub fn key(&self) -> Result<String, String> {
        let sources = self.repository.sources(self.library)?;
        key::key(self.repository.root(), &sources, &self.kit.version)
    }

    /// Has `rt` prove and build the archive, and says where it is.
    pub fn run(&self, log: &Path, teller: &Teller) -> Result<PathBuf, String> {
        let exporter = self.repository.exporter(self.library)?;
        let below = self.repository.crates(self.library)?.len() - 1;
        teller.tell(&format!(
            "proving crates/{exporter} and the {below} crates below it; some minutes, once"
        ));
        let (begun, mut last) = (Instant::now(), Instant::now());
        let mut reader = Reader::default();
        let folder = self.repository.root().join("crates").join(&exporter);
        let ended = self.watch(&folder, log, |line| {
            if let Some(name) = reader.proved(line) {
                let seconds = last.elapsed().as_secs();
                last = Instant::now();
                teller.tell(&format!("{name} proved, {seconds} s"));
            }
        });
        let status = ended.map_err(|error| format!("`rt lib` in crates/{exporter}: {error}"))?;
        if !status.success() {
            return Err(failed(&exporter, status, log));
        }
        let seconds = begun.elapsed().as_secs();
        teller.tell(&format!(
            "{exporter} proved and built, {seconds} s in all; kept for every build"
        ));
        Ok(folder.join(format!("out/lib{exporter}.a")))
    }

    /// Runs `rt lib`, which builds only what it has proved. Both its outputs go to
    /// the log line by line, and each line is looked at.
    fn watch(
        &self,
        folder: &Path,
        log: &Path,
        mut look: impl FnMut(&str),
    ) -> io::Result<ExitStatus> {
        let mut log = File::create(log)?;
        let (said, to) = io::pipe()?;
        let mut child = Command::new(&self.kit.command)
            .arg("lib")
            .current_dir(folder)
            .stdin(Stdio::null())
            .stdout(to.try_clone()?)
            .stderr(to)
            .spawn()?;
        let mut said = BufReader::new(said);
        let mut line = Vec::new();
        while said.read_until(b'\n', &mut line)? > 0 {
            log.write_all(&line)?;
            look(String::from_utf8_lossy(&line).trim_end());
            line.clear();
        }
        child.wait()
    }
}

/// Reads what `rt` says of one crate after another: `crate NAME: ..`, and when it is
/// done `logic=proved ..`. Of a crate that was built before it says nothing.
#[derive(Debug, Default)]
struct Reader {
    name: String,
}

impl Reader {
    /// The crate that is proved with this line.
    fn proved(&mut self, line: &str) -> Option<&str> {
        if let Some((name, _)) = line
            .strip_prefix("crate ")
            .and_then(|it| it.split_once(": "))
        {
            self.name = name.to_string();
        }
        line.starts_with("logic=proved ").then_some(&self.name)
    }
}

fn failed(exporter: &str, status: ExitStatus, log: &Path) -> String {
    let text = std::fs::read(log).unwrap_or_default();
    let text = String::from_utf8_lossy(&text);
    let lines: Vec<&str> = text.lines().collect();
    let last = lines[lines.len().saturating_sub(SHOWN)..].join("\n");
    format!(
        "`rt lib` in crates/{exporter} failed ({status}). All that it printed is in {}; the last lines:\n{last}",
        log.display()
    )
}

#[cfg(test)]
mod tests {
    use super::*;
    use crate::trial::{Folder, PROVES};
    use std::fs;

    #[test]
    fn lines_that_tell_of_a_crate() {
        let mut reader = Reader::default();
        for line in [
            "",
            "rt: chose --jobs 2 for policy",
            "fn policy::reading::read_policy: proved",
            "library text: modules loaded=36 checked=0",
            "crate policy: modules loaded=0 checked=81",
            "only=0 proved=0",
            "logic=not-proved",
        ] {
            assert_eq!(reader.proved(line), None, "{line}");
        }
        let last = "logic=proved functions=59 target=x86_64-unknown-linux-gnu";
        assert_eq!(reader.proved(last), Some("policy"));
    }

    /// What the teller and the log have after a run of this `rt`.
    fn run(script: &str) -> (Result<PathBuf, String>, String, String) {
        let folder = Folder::repository();
        let repository = Repository::above(folder.path()).unwrap();
        let kit = Kit {
            command: folder.script("rt", script),
            version: String::new(),
        };
        let (log, told) = (folder.path().join("log"), folder.file("told", b""));
        let teller = Teller::to("muckposy", File::create(&told).unwrap());
        let ended = Proving::new(&repository, &kit, "top").run(&log, &teller);
        let text = |path| fs::read_to_string(path).unwrap();
        (ended, text(told), text(log))
    }

    #[test]
    fn how_far_it_is() {
        let (ended, told, log) = run(PROVES);
        assert!(ended.unwrap().ends_with("crates/top/out/libtop.a"));
        let told: Vec<&str> = told.lines().collect();
        let first = "muckposy: proving crates/top and the 2 crates below it; some minutes, once";
        assert_eq!(told[0], first);
        assert!(told[1].starts_with("muckposy: low proved, "));
        assert!(told[2].starts_with("muckposy: top proved, "));
        assert!(told[3].starts_with("muckposy: top proved and built, "));
        assert_eq!(told.len(), 4);
        assert!(log.contains("logic=proved functions=3\n"), "{log}");
    }

    #[test]
    fn what_is_said_of_a_failure() {
        let many = "for n in $(seq 60); do echo line $n; done; echo the reason >&2; kill -9 $$";
        let (ended, _, log) = run(many);
        let words = ended.unwrap_err();
        assert!(
            words.contains("`rt lib` in crates/top failed (signal: 9"),
            "{words}"
        );
        assert!(
            words.contains("/log; the last lines:\nline 22\n"),
            "{words}"
        );
        assert!(words.ends_with("line 60\nthe reason"), "{words}");
        assert_eq!(log.lines().count(), 61);
    }
}
