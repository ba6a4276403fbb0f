//! Texts that follow from a seed: sound ones, some at a limit or over it, and
//! what damage and edits leave of them.

use crate::agree;
use second::generate::damage::{damage_policy, damage_record};
use second::generate::random::Random;
use second::generate::share::share;
use second::generate::{any_case, planner, render, requests};
use trials::changes::changes;
use trials::tally::Tally;

const TEXTS: usize = 24_000;

#[test]
fn generated_policies_agree() {
    let mut random = Random::new(1);
    let mut tally = Tally::default();
    let mut other = any_case(&mut random).policy;
    while tally.texts() < share(TEXTS) {
        let mut plan = planner::policy(&mut random);
        if random.chance(1, 4) {
            planner::bring_to_a_limit(&mut plan, &mut random);
        }
        let text = render::policy(&plan, &mut random);
        for changed in changes(&text, &other, damage_policy, &mut random) {
            tally.count(agree::policy(&changed));
        }
        other = text;
    }
    let wanted = [
        (0, TEXTS / 4),
        (2, 200),
        (3, TEXTS / 20),
        (4, TEXTS / 5),
        (5, TEXTS / 20),
    ];
    tally.at_least("policies", &wanted);
}

#[test]
fn generated_records_agree() {
    let mut random = Random::new(2);
    let mut tally = Tally::default();
    let mut other = b"[]".to_vec();
    while tally.texts() < share(TEXTS) {
        let plan = planner::policy(&mut random);
        let mut record = requests::record(&plan, &mut random);
        if random.chance(1, 4) {
            requests::bring_to_a_limit(&mut record, &mut random);
        }
        let text = render::record(&record, &mut random);
        for changed in changes(&text, &other, damage_record, &mut random) {
            tally.count(agree::record(&changed));
        }
        other = text;
    }
    let wanted = [(0, TEXTS / 4), (7, 200), (8, TEXTS / 20), (9, TEXTS / 5)];
    tally.at_least("records", &wanted);
}

/// Cases as they are made for whole operations: policies with their records.
#[test]
fn whole_cases_agree() {
    let mut random = Random::new(3);
    for _ in 0..share(1_000) {
        let case = any_case(&mut random);
        let _ = agree::policy(&case.policy);
        for record in &case.records {
            let _ = agree::record(record);
            // Each is also read as what it is not.
            let _ = agree::policy(record);
        }
        let _ = agree::record(&case.policy);
    }
}
