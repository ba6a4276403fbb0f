//! A long comparison of the proved library with the second implementation.
//!
//! ```text
//! campaign COUNT [SEED]   COUNT logs, from a seed on
//! ```
//!
//! Each log is walked whole and in parts, record by record beside the second
//! implementation, and its room is damaged in several ways. Some seeds also try
//! the properties that hold of every implementation, which take longer than all
//! the rest. The last line counts failures; the exit code is 1 if there are any.

#![forbid(unsafe_code)]

#[path = "../tests/all/proved.rs"]
mod proved;

use proved::{Proved, PROVED};
use second::properties::check_seed;
use std::process::ExitCode;
use std::thread;
use trials::tally::Tally;
use trials::{damage, logs, Check};

/// How many ways each room is damaged in.
const WAYS: usize = 4;

/// One seed in so many tries the properties.
const SEEDS_FOR_PROPERTIES: u64 = 32;

fn main() -> ExitCode {
    let numbers: Option<Vec<u64>> = std::env::args().skip(1).map(|a| a.parse().ok()).collect();
    let (count, seed) = match numbers.as_deref() {
        Some(&[count]) => (count, 0),
        Some(&[count, seed]) => (count, seed),
        _ => {
            eprintln!("usage: campaign COUNT [SEED]");
            return ExitCode::from(2);
        }
    };
    let (tally, failures) = walk(count, seed);
    print!("{tally}");
    println!("{count} logs from seed {seed}, {failures} failures");
    ExitCode::from(u8::from(failures > 0))
}

/// Shares the seeds among the processor's threads, and adds up what they met.
fn walk(count: u64, seed: u64) -> (Tally, usize) {
    let threads = thread::available_parallelism().map_or(1, usize::from);
    thread::scope(|scope| {
        let share = |first: usize| {
            let seeds = (first as u64..count).step_by(threads);
            scope.spawn(move || walk_share(seeds.map(|number| seed.wrapping_add(number))))
        };
        let shares: Vec<_> = (0..threads).map(share).collect();
        let mut sum = (Tally::default(), 0);
        for share in shares {
            let (tally, failures) = share.join().expect("a thread that ends");
            sum.0.add(&tally);
            sum.1 += failures;
        }
        sum
    })
}

fn walk_share(seeds: impl Iterator<Item = u64>) -> (Tally, usize) {
    let (mut tally, mut failures) = (Tally::default(), 0);
    for seed in seeds {
        if let Err(trouble) = check(seed, &mut tally) {
            println!("{trouble}");
            failures += 1;
        }
    }
    (tally, failures)
}

fn check(seed: u64, tally: &mut Tally) -> Check {
    logs::check(&PROVED, seed, tally)?;
    damage::check(&PROVED, seed, WAYS, tally)?;
    if seed.is_multiple_of(SEEDS_FOR_PROPERTIES) {
        check_seed(&Proved, seed)?;
    }
    Ok(())
}
