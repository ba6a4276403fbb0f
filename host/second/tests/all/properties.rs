//! The properties on a fixed run of seeds, and what the generator reaches.

use second::corpus::ANY_POLICY;
use second::generate::random::Random;
use second::generate::share::{least, share};
use second::generate::{any_case, sound_case};
use second::properties::check_second;
use second::{decide, feed, finish, restate};
use std::collections::BTreeMap;

const SEEDS: usize = 2_000;

#[test]
fn properties_hold() {
    for seed in 0..share(SEEDS) as u64 {
        if let Err(trouble) = check_second(seed) {
            panic!("{trouble}");
        }
    }
}

/// A property that is never put to the test proves nothing: over the same
/// number of seeds every outcome, refusal and kind of row must turn up often.
#[test]
fn the_generator_reaches_everything() {
    let mut met = Met::default();
    for seed in 0..share(SEEDS) as u64 {
        let mut random = Random::new(seed);
        met.count_sound(&mut random);
        met.count_any(&mut random);
    }
    let often = [
        "Allowed",
        "ExplicitlyDenied",
        "ImplicitlyDenied",
        "row 1",
        "row 2",
        "row 3",
        "row 4",
        "finished",
        "finish refused 10",
    ];
    let sometimes = [
        "policy refused 2",
        "policy refused 3",
        "policy refused 4",
        "policy refused 5",
        "policy refused 11",
        "record refused 7",
        "record refused 8",
        "record refused 9",
        "finish refused 11",
    ];
    for what in often {
        assert!(met.times(what) > least(300), "{what}: {met:?}");
    }
    for what in sometimes {
        assert!(met.times(what) > least(10), "{what}: {met:?}");
    }
}

/// How often each outcome was met.
#[derive(Debug, Default)]
struct Met(BTreeMap<String, usize>);

impl Met {
    fn count(&mut self, what: String) {
        *self.0.entry(what).or_default() += 1;
    }

    fn times(&self, what: &str) -> usize {
        self.0.get(what).copied().unwrap_or(0)
    }

    fn count_sound(&mut self, random: &mut Random) {
        let case = sound_case(random);
        let mut room = vec![0; 16_384];
        for (_, record) in &case.records {
            if let Ok(decision) = feed(&case.policy, record, &mut room) {
                self.count(format!("{:?}", decision.outcome));
            }
        }
        for row in room.chunks(256) {
            self.count(format!("row {}", row[0]));
        }
        match finish(&case.policy, &room, &mut [0; 6_144]) {
            Ok(_) => self.count("finished".to_owned()),
            Err(refusal) => self.count(format!("finish refused {}", refusal.number)),
        }
    }

    fn count_any(&mut self, random: &mut Random) {
        let case = any_case(random);
        if let Err(refusal) = restate(&case.policy, &mut [0; 6_144]) {
            self.count(format!("policy refused {}", refusal.number));
        }
        for record in &case.records {
            if let Err(refusal) = decide(ANY_POLICY, record) {
                self.count(format!("record refused {}", refusal.number));
            }
        }
    }
}
