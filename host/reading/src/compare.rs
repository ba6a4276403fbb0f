//! Both implementations of the scan and of reading on files that others wrote:
//! each file, and each line of a log, is one text.

use crate::{read_policy, read_record};
use second::layouts;
use std::fmt::Debug;
use std::fs;
use std::io;
use std::path::{Path, PathBuf};

/// How many texts were read, and a line for each answer in which the two
/// differ.
#[derive(Debug, Default)]
pub struct Comparison {
    pub texts: usize,
    pub differences: Vec<String>,
}

impl Comparison {
    /// Every text is scanned, and read as a policy and as a record.
    fn add(&mut self, name: &str, text: &[u8]) {
        self.texts += 1;
        self.answers(name, probe::scan(text), second::scan(text));
        self.answers(name, read_policy(text), layouts::read_policy(text));
        self.answers(name, read_record(text), layouts::read_record(text));
    }

    fn answers<T: PartialEq + Debug>(&mut self, name: &str, proved: T, second: T) {
        if proved != second {
            let line = format!("DIFFERS {name}: proved {proved:?}, second {second:?}");
            self.differences.push(line);
        }
    }
}

/// Compares on every file below a folder, and every line of each log.
pub fn compare(folder: &Path, logs: &[PathBuf]) -> io::Result<Comparison> {
    let mut comparison = Comparison::default();
    let mut folders = vec![folder.to_path_buf()];
    while let Some(folder) = folders.pop() {
        for entry in fs::read_dir(folder)? {
            let path = entry?.path();
            if path.is_dir() {
                folders.push(path);
            } else {
                comparison.add(&path.display().to_string(), &fs::read(&path)?);
            }
        }
    }
    for log in logs {
        let text = fs::read(log)?;
        for (index, line) in text.split(|&byte| byte == b'\n').enumerate() {
            let name = format!("{} line {}", log.display(), index + 1);
            comparison.add(&name, line);
        }
    }
    Ok(comparison)
}
