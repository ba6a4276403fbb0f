//! The proved library and the second implementation on your own files.
//!
//! ```text
//! corpus policies FOLDER [LOG]   every operation on each policy file
//! corpus json FOLDER             a JSON suite, as policies and as records
//! ```
//!
//! Prints the answers in which the two differ; the last line counts them, and
//! the exit code is 1 if there are any.

#![forbid(unsafe_code)]

#[path = "../tests/all/proved.rs"]
mod proved;

use proved::PROVED;
use second::corpus::{run_json_suite, run_policies, Report};
use second::implementation::{Implementation, Second};
use std::io;
use std::path::Path;
use std::process::ExitCode;

fn main() -> ExitCode {
    let arguments: Vec<String> = std::env::args().skip(1).collect();
    let arguments: Vec<&str> = arguments.iter().map(String::as_str).collect();
    let run = |implementation: &dyn Implementation| run(implementation, &arguments);
    let reports = run(PROVED.implementation).and_then(|one| Ok((one, run(&Second)?)));
    match reports {
        Ok((proved, second)) => ExitCode::from(u8::from(compare(&proved, &second) > 0)),
        Err(error) => {
            eprintln!("corpus: {error}");
            ExitCode::from(2)
        }
    }
}

fn run(implementation: &dyn Implementation, arguments: &[&str]) -> io::Result<Report> {
    match *arguments {
        ["policies", folder] => run_policies(implementation, Path::new(folder), None),
        ["policies", folder, log] => {
            run_policies(implementation, Path::new(folder), Some(Path::new(log)))
        }
        ["json", folder] => run_json_suite(implementation, Path::new(folder)),
        _ => Err(io::Error::other(
            "use `policies FOLDER [LOG]` or `json FOLDER`",
        )),
    }
}

/// Prints both lines of each answer that is not the same.
fn compare(proved: &Report, second: &Report) -> usize {
    let pairs = || proved.lines.iter().zip(&second.lines);
    for (one, other) in pairs().filter(|(one, other)| one != other) {
        println!("proved {one}\nsecond {other}");
    }
    let different = pairs().filter(|(one, other)| one != other).count();
    println!("{} lines, {different} differences", proved.lines.len());
    different
}
