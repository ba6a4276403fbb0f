//! Rooms that were fed and then changed.

use crate::proved::PROVED;
use second::generate::share::share;
use trials::damage;
use trials::tally::Tally;

const ROOMS: usize = 2_000;

#[test]
fn damaged_rooms_are_judged_alike() {
    let mut tally = Tally::default();
    for seed in 0..share(ROOMS) as u64 {
        let checked = damage::check(&PROVED, seed, 10, &mut tally);
        assert_eq!(checked, Ok(()));
    }
    tally.at_least("damaged rooms", &[("taken", ROOMS), ("refused", 4 * ROOMS)]);
}

#[test]
fn every_number_counts() {
    let mut tally = Tally::default();
    assert_eq!(damage::every_number(&PROVED, &mut tally), Ok(()));
    tally.at_least("changed numbers", &[("taken", 200), ("refused", 10_000)]);
}
