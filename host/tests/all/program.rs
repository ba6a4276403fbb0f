//! The proved program, run as a user runs it: a folder with policy.json, a log
//! on standard input. What it prints is compared with tables by hand and with
//! the second implementation's program.

use crate::runner::start;
use std::fs::{self, File};
use std::io::Write;
use std::path::{Path, PathBuf};
use std::process::Stdio;
use std::sync::atomic::{AtomicUsize, Ordering};

pub const POLICY: &str = r#"{"Version":"2012-10-17","Statement":[{"Effect":"Allow","Action":"s3:*","Resource":"arn:aws:s3:::gate/*"}]}"#;

pub const REFINED: &str = r#"{"Version":"2012-10-17","Statement":[{"Effect":"Allow","Action":["s3:GetObject"],"Resource":["arn:aws:s3:::gate/a"]}]}"#;

/// A record that POLICY allows.
pub const RECORD: &str =
    r#"{"ActionNames":["s3:GetObject"],"ResourceArns":["arn:aws:s3:::gate/a"]}"#;

pub fn root() -> PathBuf {
    Path::new(env!("CARGO_MANIFEST_DIR")).join("..")
}

/// `rt ci`, and `rt run` in crates/muckposy, leave the program here.
pub fn program() -> PathBuf {
    let path = root().join("crates/muckposy/out/muckposy");
    assert!(
        path.is_file(),
        "{} is missing: `rt run` in crates/muckposy makes it",
        path.display()
    );
    path.canonicalize().expect("the program has a path")
}

/// A folder of its own for each run.
pub fn folder() -> PathBuf {
    static NEXT: AtomicUsize = AtomicUsize::new(0);
    let number = NEXT.fetch_add(1, Ordering::Relaxed);
    let name = format!("muckposy-program-{}-{number}", std::process::id());
    let path = std::env::temp_dir().join(name);
    fs::create_dir(&path).expect("a folder for the run");
    path
}

struct Run {
    output: Vec<u8>,
    errors: Vec<u8>,
}

fn run_in(folder: &Path, log: &[u8]) -> Run {
    let mut child = start(&program())
        .current_dir(folder)
        .stdin(Stdio::piped())
        .stdout(Stdio::piped())
        .stderr(Stdio::piped())
        .spawn()
        .expect("the program starts");
    let mut input = child.stdin.take().expect("standard input is piped");
    let log = log.to_vec();
    // A program that ends early closes its input: that is no fault of the test.
    let feeding = std::thread::spawn(move || drop(input.write_all(&log)));
    let done = child.wait_with_output().expect("the program ends");
    feeding.join().expect("the log is written");
    assert!(done.status.success(), "the program's exit status");
    Run {
        output: done.stdout,
        errors: done.stderr,
    }
}

fn run(policy: Option<&[u8]>, log: &[u8]) -> Run {
    let folder = folder();
    if let Some(text) = policy {
        fs::write(folder.join("policy.json"), text).expect("the policy is written");
    }
    let run = run_in(&folder, log);
    fs::remove_dir_all(&folder).expect("the folder is removed");
    run
}

fn second(policy: Option<&[u8]>, log: &[u8]) -> Vec<u8> {
    let mut output = Vec::new();
    second::run_program(policy, log, &mut output).expect("writing to memory");
    output
}

/// Prints exactly this, and so does the second implementation.
#[track_caller]
fn prints(policy: Option<&[u8]>, log: &[u8], expected: &str) {
    let run = run(policy, log);
    assert_eq!(String::from_utf8_lossy(&run.output), expected);
    assert!(run.errors.is_empty(), "nothing on standard error");
    assert_eq!(
        String::from_utf8_lossy(&second(policy, log)),
        expected,
        "the second implementation"
    );
}

#[test]
fn the_whole_example() {
    let at = |mark: &str| {
        format!(
            r#"{{"ActionNames":["s3:GetObject"],"ResourceArns":["arn:aws:s3:::gate/north/é{mark}"]}}"#
        )
    };
    let log = format!("{}\n{{\n{}\n", at("1"), at("2"));
    let result = r#"{"Version":"2012-10-17","Statement":[{"Effect":"Allow","Action":["s3:GetObject"],"Resource":["arn:aws:s3:::gate/north/\u00e9*"]}]}"#;
    let expected = format!("line 2 refused 8 at 1\n{result}\n");
    prints(Some(POLICY.as_bytes()), log.as_bytes(), &expected);
}

#[test]
fn no_policy() {
    prints(None, b"", "no policy\n");
    prints(None, format!("{RECORD}\n").as_bytes(), "no policy\n");
}

/// A folder in the policy's place cannot be read.
#[test]
fn a_policy_that_cannot_be_read() {
    let folder = folder();
    fs::create_dir(folder.join("policy.json")).expect("a folder in its place");
    let run = run_in(&folder, RECORD.as_bytes());
    fs::remove_dir_all(&folder).expect("the folder is removed");
    assert_eq!(run.output, b"no policy\n");
    assert_eq!(run.errors, b"policy.json could not be read to its end\n");
}

/// A folder as standard input can be opened and not be read. That is not taken
/// for the end of the log: no result is printed.
#[test]
fn a_log_that_cannot_be_read() {
    let folder = folder();
    fs::write(folder.join("policy.json"), POLICY).expect("the policy is written");
    let done = start(&program())
        .current_dir(&folder)
        .stdin(File::open(&folder).expect("the folder is opened"))
        .output()
        .expect("the program ends");
    fs::remove_dir_all(&folder).expect("the folder is removed");
    assert_eq!(String::from_utf8_lossy(&done.stdout), "");
    assert_eq!(
        String::from_utf8_lossy(&done.stderr),
        "standard input could not be read to its end\n"
    );
}

/// Only the refusal is printed, whatever the log has.
#[test]
fn refused_policies() {
    let long = vec![b' '; 16_385];
    let exact = vec![b' '; 16_384];
    let statement = r#"{"Effect":"Allow","Action":"s3:*","Resource":"*"}"#;
    let many = vec![statement; 17].join(",");
    let over = format!(r#"{{"Version":"2012-10-17","Statement":[{many}]}}"#);
    let cases: [(&[u8], &str); 6] = [
        (&long, "refused 2 at 0\n"),
        (&exact, "refused 3 at 16384\n"),
        (b"", "refused 3 at 0\n"),
        (b"{]", "refused 3 at 1\n"),
        (b"{}", "refused 4 at 0\n"),
        (over.as_bytes(), "refused 5 at 0\n"),
    ];
    for (policy, expected) in cases {
        prints(Some(policy), b"{\n", expected);
        prints(Some(policy), b"", expected);
    }
}

#[test]
fn every_refusal_of_a_record() {
    let long = format!("{RECORD}{}", " ".repeat(8_193 - RECORD.len()));
    let exact = format!("{RECORD}{}", " ".repeat(8_192 - RECORD.len()));
    let log = format!("{long}\n{exact}\n[\n\u{fffd}\n{{}}\n{RECORD}\n");
    let expected = format!(
        "line 1 refused 7 at 0\nline 3 refused 8 at 1\nline 4 refused 8 at 0\nline 5 refused 9 at 0\n{REFINED}\n"
    );
    prints(Some(POLICY.as_bytes()), log.as_bytes(), &expected);
}

/// Lines longer than any piece of the input that is read at once.
#[test]
fn lines_of_any_length() {
    let wide = "x".repeat(200_000);
    let log = format!("{wide}\n{RECORD}\n{wide}");
    let expected = format!("line 1 refused 7 at 0\nline 3 refused 7 at 0\n{REFINED}\n");
    prints(Some(POLICY.as_bytes()), log.as_bytes(), &expected);
}

#[test]
fn ends_of_lines() {
    let policy = Some(POLICY.as_bytes());
    let plain = format!("{REFINED}\n");
    prints(policy, format!("{RECORD}\n").as_bytes(), &plain);
    prints(policy, RECORD.as_bytes(), &plain);
    prints(policy, format!("\n\n{RECORD}\n\n").as_bytes(), &plain);
    prints(policy, format!("{RECORD}\r\n").as_bytes(), &plain);
    let returns = format!("line 2 refused 8 at 1\n{REFINED}\n");
    prints(policy, format!("{RECORD}\r\n\r\n").as_bytes(), &returns);
    let numbered = format!("line 3 refused 8 at 1\n{REFINED}\n");
    prints(policy, format!("\n\n{{\n{RECORD}").as_bytes(), &numbered);
}

#[test]
fn nothing_used() {
    prints(Some(POLICY.as_bytes()), b"", "refused 10 at 0\n");
    prints(Some(POLICY.as_bytes()), b"\n\n\n", "refused 10 at 0\n");
}

/// An example's policy and log print what is expected of it.
fn printed_as_expected(folder: &str, log: &str) {
    let folder = root().join("examples").join(folder);
    let read = |name: &str| fs::read(folder.join(name)).expect("the example is whole");
    let run = run(Some(&read("policy.json")), &read(log));
    assert_eq!(
        String::from_utf8_lossy(&run.output),
        String::from_utf8_lossy(&read("expected.txt"))
    );
}

#[test]
fn the_example_of_the_gate() {
    printed_as_expected("gate", "night.log");
}

#[test]
fn the_example_of_days() {
    printed_as_expected("days", "gate.log");
}

/// A log of many pieces, so that lines are cut at every place of a record.
#[test]
fn many_pieces() {
    let mut log = Vec::new();
    for number in 0..4_000_usize {
        log.extend_from_slice(RECORD.as_bytes());
        log.extend_from_slice(" ".repeat(number % 97).as_bytes());
        if number % 50 == 7 {
            log.push(b'}');
        }
        log.push(b'\n');
    }
    let run = run(Some(POLICY.as_bytes()), &log);
    let expected = second(Some(POLICY.as_bytes()), &log);
    assert_eq!(expected.iter().filter(|&&byte| byte == b'\n').count(), 81);
    assert_eq!(
        String::from_utf8_lossy(&run.output),
        String::from_utf8_lossy(&expected)
    );
}
