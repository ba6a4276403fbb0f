//! The second implementation passes every trial, and the generated cases reach
//! everything.

use second::generate::share::share;
use trials::tally::Tally;
use trials::{damage, logs, Subject};

const LOGS: usize = 4_000;
const ROOMS: usize = 500;

#[test]
fn every_trial_is_passed() {
    for (name, trial) in trials::ALL {
        assert_eq!(trial(&Subject::second()), Ok(()), "{name}");
    }
}

#[test]
fn logs_are_walked_alike() {
    let tally = logs::check_all(&Subject::second(), 0..share(LOGS) as u64).unwrap();
    tally.at_least("logs", &logs::expected(LOGS));
}

#[test]
fn damaged_rooms_are_judged_alike() {
    let mut tally = Tally::default();
    for seed in 0..share(ROOMS) as u64 {
        let checked = damage::check(&Subject::second(), seed, 10, &mut tally);
        assert_eq!(checked, Ok(()));
    }
    tally.at_least("damaged rooms", &[("taken", ROOMS), ("refused", 4 * ROOMS)]);
}

#[test]
fn every_number_counts() {
    let mut tally = Tally::default();
    let checked = damage::every_number(&Subject::second(), &mut tally);
    assert_eq!(checked, Ok(()));
    tally.at_least("changed numbers", &[("taken", 200), ("refused", 10_000)]);
}
