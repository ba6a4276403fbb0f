//! Instructions, counted by valgrind: the same on every run and every machine
//! that runs the same code.

use crate::groups::Group;
use std::env::current_exe;
use std::fs;
use std::process::{Command, Output};

/// How often a kernel is repeated: less often where a repetition is many calls.
fn times(group: &Group) -> usize {
    match group.calls {
        1 => 20,
        _ => 4,
    }
}

/// Starting the program and making the texts is counted apart and taken off.
pub fn per_call(group: &Group, kernel: &str) -> f64 {
    let times = times(group);
    let work = collected(group, kernel, times) - collected(group, kernel, 0);
    work as f64 / (times * group.calls) as f64
}

/// All instructions of a run of this program that repeats a kernel.
fn collected(group: &Group, kernel: &str, times: usize) -> u64 {
    let output = callgrind(group, kernel, times, &["--callgrind-out-file=/dev/null"]);
    let log = String::from_utf8_lossy(&output.stderr);
    let line = log.lines().find_map(|line| line.split_once("Collected : "));
    let (_, count) = line.expect("callgrind says what it collected");
    count.trim().parse().expect("a number")
}

fn callgrind(group: &Group, kernel: &str, times: usize, options: &[&str]) -> Output {
    let output = Command::new("valgrind")
        .arg("--tool=callgrind")
        .args(options)
        .arg(current_exe().expect("this program has a path"))
        .args(["repeat", group.operation, group.texts, kernel])
        .arg(times.to_string())
        .output()
        .expect("valgrind is installed");
    let log = String::from_utf8_lossy(&output.stderr);
    assert!(output.status.success(), "valgrind failed:\n{log}");
    output
}

/// The functions that take most of an operation of the proved library, and the
/// share of its instructions that is their own.
pub fn by_function(group: &Group) -> Vec<(String, f64)> {
    let file = std::env::temp_dir().join(format!("muckposy-callgrind-{}", std::process::id()));
    let out = format!("--callgrind-out-file={}", file.display());
    let inside = format!("--toggle-collect=muckposy_{}", group.operation);
    callgrind(group, "proved", times(group), &[&out, &inside]);
    let output = Command::new("callgrind_annotate")
        .args(["--threshold=100", "--auto=no"])
        .arg(&file)
        .output()
        .expect("it comes with valgrind");
    let _ = fs::remove_file(&file);
    let lines = String::from_utf8_lossy(&output.stdout);
    let mut shares: Vec<(String, f64)> = Vec::new();
    for (name, share) in lines.lines().filter_map(function) {
        // A function that calls itself has a line for each way it was called.
        match shares.iter_mut().find(|(known, _)| *known == name) {
            Some((_, sum)) => *sum += share,
            None => shares.push((name, share)),
        }
    }
    shares.sort_by(|one, two| two.1.total_cmp(&one.1));
    shares.truncate(6);
    shares
}

/// A line of callgrind_annotate: a count, its share, a file and a function.
fn function(line: &str) -> Option<(String, f64)> {
    let (count, rest) = line.trim_start().split_once(" (")?;
    count.replace(',', "").parse::<u64>().ok()?;
    let (share, rest) = rest.split_once("%)")?;
    let rest = rest.trim().strip_prefix("???:").unwrap_or(rest.trim());
    let name = rest.split(" [").next()?.trim();
    if name.starts_with("PROGRAM") {
        return None;
    }
    // What the C library calls its fastest way to fill memory is filling memory.
    let name = match name {
        _ if name.contains("memset") => "memset",
        _ if name.contains("memcpy") || name.contains("memmove") => "memcpy",
        _ => name.trim_end_matches("'2"),
    };
    Some((name.to_owned(), share.trim().parse::<f64>().ok()? / 100.0))
}
