//! Runs the proved scan, the proved readers of policies and of records, and the
//! second implementation's on your own data.
//!
//! ```text
//! compare FOLDER [LOG ..]   every file below a folder, every line of each log
//! ```
//!
//! The last line counts; the exit code is 1 if the two differ anywhere.

#![forbid(unsafe_code)]

use std::path::PathBuf;
use std::process::ExitCode;

fn main() -> ExitCode {
    let arguments: Vec<PathBuf> = std::env::args_os().skip(1).map(PathBuf::from).collect();
    let Some((folder, logs)) = arguments.split_first() else {
        eprintln!("usage: compare FOLDER [LOG ..]");
        return ExitCode::from(2);
    };
    match reading::compare(folder, logs) {
        Ok(comparison) => {
            let different = comparison.differences.len();
            comparison
                .differences
                .iter()
                .for_each(|line| println!("{line}"));
            println!("{} texts, {different} differences", comparison.texts);
            ExitCode::from(u8::from(different > 0))
        }
        Err(error) => {
            eprintln!("compare: {error}");
            ExitCode::from(2)
        }
    }
}
