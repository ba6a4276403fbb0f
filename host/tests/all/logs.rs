//! Generated logs, record by record beside the second implementation, and cut
//! into parts.

use crate::proved::PROVED;
use second::generate::share::share;
use trials::logs;

/// The logs of each half.
const LOGS: usize = 12_000;

fn walk(half: u64) {
    let count = share(LOGS) as u64;
    let seeds = half * count..(half + 1) * count;
    let tally = logs::check_all(&PROVED, seeds).unwrap_or_else(|trouble| panic!("{trouble}"));
    tally.at_least("logs", &logs::expected(LOGS));
}

/// Two tests, so that they run side by side.
#[test]
fn the_first_half() {
    walk(0);
}

#[test]
fn the_second_half() {
    walk(1);
}
