//! A long run of the property tests on seeds in a row.
//!
//! ```text
//! campaign SEED COUNT
//! ```

#![forbid(unsafe_code)]

use second::properties::check_second;
use std::process::ExitCode;

fn main() -> ExitCode {
    let numbers: Option<Vec<u64>> = std::env::args().skip(1).map(|a| a.parse().ok()).collect();
    let Some(&[seed, count]) = numbers.as_deref() else {
        eprintln!("usage: campaign SEED COUNT");
        return ExitCode::from(2);
    };
    let mut failures = 0;
    for number in 0..count {
        if let Err(trouble) = check_second(seed.wrapping_add(number)) {
            println!("{trouble}");
            failures += 1;
        }
    }
    println!("{count} seeds from {seed}, {failures} failures");
    ExitCode::from(u8::from(failures > 0))
}
