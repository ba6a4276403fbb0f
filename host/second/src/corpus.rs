//! Trying an implementation on files that others wrote.
//!
//! Each file gives one line of text with everything that was answered, so that
//! two implementations agree on a file exactly when their lines are equal.

use crate::implementation::Implementation;
use crate::limits::{RESULT_BYTES, ROOM_NUMBERS};
use crate::{Decision, Outcome, Refusal};
use std::fs;
use std::io;
use std::path::{Path, PathBuf};

/// The policy under which the files of a JSON suite are read as records.
pub const ANY_POLICY: &[u8] =
    br#"{"Version":"2012-10-17","Statement":{"Effect":"Allow","Action":"*","Resource":"*"}}"#;
/// The record on which policies are asked when only their refusal matters.
pub const ANY_RECORD: &[u8] = br#"{"ActionNames":["a:b"]}"#;

/// The lines to print, and how many answers were as expected.
#[derive(Debug, Default)]
pub struct Report {
    pub lines: Vec<String>,
    pub agreements: usize,
    pub differences: usize,
}

impl Report {
    fn compare(&mut self, what: &str, expected: &str, found: &str) {
        if expected == found {
            self.agreements += 1;
        } else {
            self.differences += 1;
            let line = format!("DIFFERS {what}: expected {expected}, found {found}");
            self.lines.push(line);
        }
    }

    fn count(&mut self, files: usize) {
        let (same, other) = (self.agreements, self.differences);
        let line = format!("{files} files, {same} agreements, {other} differences");
        self.lines.push(line);
    }
}

/// Runs every operation on each policy of a folder, with the records of a log
/// if one is given. Where the folder has an EXPECTED.tsv, the refusals of its
/// third column are compared.
pub fn run_policies(
    implementation: &dyn Implementation,
    folder: &Path,
    log: Option<&Path>,
) -> io::Result<Report> {
    let log = log.map(fs::read).transpose()?.unwrap_or_default();
    let records: Vec<&[u8]> = lines_of(&log).collect();
    let expected = read_table(&folder.join("EXPECTED.tsv"))?;
    let mut report = Report::default();
    let files = json_files(folder)?;
    for file in &files {
        let policy = fs::read(file)?;
        let name = file.file_stem().unwrap_or_default().to_string_lossy();
        let outcome = policy_outcome(implementation, &policy, &records);
        report.lines.push(format!("{name}: {outcome}"));
        let wanted = expected.iter().find(|columns| columns[0] == *name);
        if let Some(refusal) = wanted.and_then(|columns| columns.get(2)) {
            let found = number_of(&implementation.decide(&policy, ANY_RECORD));
            report.compare(&name, refusal, &found.to_string());
        }
    }
    report.count(files.len());
    Ok(report)
}

/// Reads each file that the folder's EXPECTED.tsv names as a policy and as a
/// record, and compares refusal and place with the second and third column.
pub fn run_json_suite(implementation: &dyn Implementation, folder: &Path) -> io::Result<Report> {
    let expected = read_table(&folder.join("EXPECTED.tsv"))?;
    let mut report = Report::default();
    for columns in &expected {
        let [name, as_policy, as_record] = columns.as_slice() else {
            return Err(io::Error::other("EXPECTED.tsv: not three columns"));
        };
        let text = fs::read(folder.join(name))?;
        let mut output = vec![0; RESULT_BYTES];
        let policy = answer(&implementation.restate(&text, &mut output).map(drop));
        let record = answer(&implementation.decide(ANY_POLICY, &text).map(drop));
        report.lines.push(format!("{name}: {policy}, {record}"));
        report.compare(&format!("{name} as policy"), as_policy, &policy);
        report.compare(&format!("{name} as record"), as_record, &record);
    }
    report.count(expected.len());
    Ok(report)
}

/// Everything that an implementation answers on a policy and a log, in words.
pub fn policy_outcome(
    implementation: &dyn Implementation,
    policy: &[u8],
    records: &[&[u8]],
) -> String {
    let mut output = vec![0; RESULT_BYTES];
    let restated = implementation.restate(policy, &mut output);
    let restated = written(&restated, &output);
    let mut whole = vec![0; ROOM_NUMBERS];
    let mut halves = [whole.clone(), whole.clone()];
    let mut answers = String::new();
    for (index, record) in records.iter().enumerate() {
        let decided = implementation.decide(policy, record);
        let fed = implementation.feed(policy, record, &mut whole);
        let half = implementation.feed(policy, record, &mut halves[index % 2]);
        let alike = decided == fed && fed == half;
        answers += &format!(" {}{}", decision(&decided), if alike { "" } else { "!" });
    }
    let [mut one, other] = halves;
    let joined = implementation.join(policy, &mut one, &other);
    let parts = if one == whole { "alike" } else { "unlike" };
    let finished = implementation.finish(policy, &whole, &mut output);
    let finished = written(&finished, &output);
    let emptied = implementation.fresh(&mut whole);
    let empty = if whole.iter().all(|&number| number == 0) {
        "empty"
    } else {
        "filled"
    };
    format!(
        "restate {restated}; records{answers}; join {} {parts}; finish {finished}; fresh {} {empty}",
        answer(&joined),
        answer(&emptied),
    )
}

/// "0" or a refusal with its place.
fn answer(answered: &Result<(), Refusal>) -> String {
    match answered {
        Ok(()) => "0".to_owned(),
        Err(refusal) => format!("{} at {}", refusal.number, refusal.place),
    }
}

fn number_of<T>(answered: &Result<T, Refusal>) -> u32 {
    answered
        .as_ref()
        .map_or_else(|refusal| refusal.number, |_| 0)
}

fn written(answered: &Result<usize, Refusal>, output: &[u8]) -> String {
    match answered {
        Ok(length) => format!("{length} bytes {:016x}", checksum(&output[..*length])),
        Err(refusal) => format!("refused {} at {}", refusal.number, refusal.place),
    }
}

fn decision(answered: &Result<Decision, Refusal>) -> String {
    match answered {
        Ok(Decision { outcome, statement }) => match outcome {
            Outcome::Allowed => format!("allowed/{statement}"),
            Outcome::ExplicitlyDenied => format!("denied/{statement}"),
            Outcome::ImplicitlyDenied => format!("implicit/{statement}"),
        },
        Err(refusal) => format!("{}@{}", refusal.number, refusal.place),
    }
}

/// FNV-1a: enough to tell results apart at a glance.
fn checksum(bytes: &[u8]) -> u64 {
    bytes.iter().fold(0xcbf2_9ce4_8422_2325, |sum, &byte| {
        (sum ^ u64::from(byte)).wrapping_mul(0x100_0000_01b3)
    })
}

/// A folder of outside files, where it is at hand: beside the checkout. Says so
/// where it is not.
pub fn at_hand(folder: &str) -> Option<PathBuf> {
    let package = Path::new(env!("CARGO_MANIFEST_DIR"));
    let checkout = package.parent()?.parent()?;
    let path = checkout.parent()?.join("shared/corpus").join(folder);
    if !path.is_dir() {
        println!("no {folder} corpus beside the checkout: skipped");
        return None;
    }
    Some(path)
}

/// The lines of a log that are not empty.
pub fn lines_of(log: &[u8]) -> impl Iterator<Item = &[u8]> {
    log.split(|&byte| byte == b'\n')
        .filter(|line| !line.is_empty())
}

fn json_files(folder: &Path) -> io::Result<Vec<PathBuf>> {
    let mut files = Vec::new();
    for item in fs::read_dir(folder)? {
        let path = item?.path();
        if path
            .extension()
            .is_some_and(|extension| extension == "json")
        {
            files.push(path);
        }
    }
    files.sort();
    Ok(files)
}

/// The rows behind the heading of a table, none if there is no such file.
fn read_table(path: &Path) -> io::Result<Vec<Vec<String>>> {
    if !path.exists() {
        return Ok(Vec::new());
    }
    let table = fs::read_to_string(path)?;
    let rows = table.lines().skip(1).filter(|line| !line.is_empty());
    Ok(rows
        .map(|line| line.split('\t').map(str::to_owned).collect())
        .collect())
}
