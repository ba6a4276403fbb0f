//! Tries the second implementation on files that others wrote.
//!
//! ```text
//! corpus policies FOLDER [LOG]   every operation on each policy of a folder
//! corpus json FOLDER             a JSON suite with its EXPECTED.tsv
//! ```
//!
//! The last line counts; the exit code is 1 if anything was not as expected.

#![forbid(unsafe_code)]

use second::corpus::{run_json_suite, run_policies, Report};
use second::implementation::Second;
use std::io;
use std::path::Path;
use std::process::ExitCode;

fn main() -> ExitCode {
    let arguments: Vec<String> = std::env::args().skip(1).collect();
    let arguments: Vec<&str> = arguments.iter().map(String::as_str).collect();
    let report = match arguments.as_slice() {
        ["policies", folder] => run_policies(&Second, Path::new(folder), None),
        ["policies", folder, log] => run_policies(&Second, Path::new(folder), Some(Path::new(log))),
        ["json", folder] => run_json_suite(&Second, Path::new(folder)),
        _ => {
            eprintln!("usage: corpus policies FOLDER [LOG] | corpus json FOLDER");
            return ExitCode::from(2);
        }
    };
    print(report)
}

fn print(report: io::Result<Report>) -> ExitCode {
    match report {
        Ok(report) => {
            report.lines.iter().for_each(|line| println!("{line}"));
            ExitCode::from(u8::from(report.differences > 0))
        }
        Err(error) => {
            eprintln!("corpus: {error}");
            ExitCode::from(2)
        }
    }
}
