//! Policies under every single edit of their parts and bytes, and those of
//! others.

use super::generated::check;
use second::corpus::at_hand;
use second::generate::edits::edit;
use second::generate::random::Random;
use second::generate::share::share;
use std::fs;
use trials::changes::{every_change, POLICIES};
use trials::tally::Tally;

#[test]
fn edited_policies_agree() {
    let mut random = Random::new(12);
    let mut tally = Tally::default();
    for policy in POLICIES {
        for changed in every_change(policy) {
            check(&changed, &mut random, &mut tally);
        }
    }
    let wanted = [(0, 500), (3, 2_000), (4, 2_000)];
    tally.at_least("edited policies restated", &wanted);
}

#[test]
fn policies_of_others_agree() {
    let Some(folder) = at_hand("policies") else {
        return;
    };
    let mut random = Random::new(13);
    let mut tally = Tally::default();
    let files = fs::read_dir(folder).unwrap();
    let mut paths: Vec<_> = files.map(|file| file.unwrap().path()).collect();
    paths.sort();
    let mut last = b"[]".to_vec();
    for path in paths {
        let policy = fs::read(path).unwrap();
        check(&policy, &mut random, &mut tally);
        for _ in 0..share(10) {
            let edited = edit(&policy, &last, &mut random);
            check(&edited, &mut random, &mut tally);
        }
        last = policy;
    }
    tally.at_least("policies of others restated", &[(0, 100), (4, 100)]);
}
