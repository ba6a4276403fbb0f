//! Policies with records that match or nearly match them, as a seed gives them.

use crate::agree::{self, shown};
use second::generate::edits::edit;
use second::generate::random::Random;
use second::generate::share::{least, share};
use second::generate::{any_case, sound_case};
use second::model::Model;
use second::{Decision, Refusal};
use std::collections::BTreeMap;

const PAIRS: usize = 24_000;
const POLICY_BYTES: usize = 16_384;

/// How often each decision was made, and each refusal given.
#[derive(Default)]
pub struct Tally {
    answers: BTreeMap<String, usize>,
    pairs: usize,
    /// The highest statement that decided.
    highest: u32,
}

impl Tally {
    pub fn count(&mut self, answer: Result<Decision, Refusal>) {
        let name = match answer {
            Ok(decision) => format!("{:?}", decision.outcome),
            Err(refusal) => format!("refused {}", refusal.number),
        };
        *self.answers.entry(name).or_default() += 1;
        self.pairs += 1;
        let statement = answer.map_or(0, |decision| decision.statement);
        self.highest = self.highest.max(statement);
    }

    /// Pairs that were nearly all decided alike would try little.
    pub fn at_least(&self, what: &str, wanted: &[(&str, usize)]) {
        println!("{} {what}: {:?}", self.pairs, self.answers);
        for (name, times) in wanted {
            let found = self.answers.get(*name).copied().unwrap_or(0);
            let least = least(*times);
            assert!(found >= least, "{found} {what} {name}, of {least}");
        }
    }
}

/// The model knows from the plan what a text means, without reading it.
#[test]
fn sound_pairs_agree() {
    let mut random = Random::new(5);
    let mut tally = Tally::default();
    while tally.pairs < share(PAIRS) {
        let case = sound_case(&mut random);
        let too_long = case.policy.len() > POLICY_BYTES;
        let model = Model::new(&case.plan);
        for (plan, record) in &case.records {
            let answer = agree::decide(&case.policy, record);
            let expected = match too_long {
                true => Err(Refusal::POLICY_TOO_LONG),
                false => Ok(model.decide(plan)),
            };
            assert_eq!(answer, expected, "{}", shown(&[&case.policy, record]));
            tally.count(answer);
        }
    }
    let wanted = [
        ("Allowed", PAIRS * 2 / 5),
        ("ExplicitlyDenied", PAIRS / 6),
        ("ImplicitlyDenied", PAIRS / 4),
    ];
    tally.at_least("sound pairs", &wanted);
    assert!(tally.highest >= 14, "{}", tally.highest);
}

/// Records under another record's policy match seldom, but not never.
#[test]
fn strange_pairs_agree() {
    let mut random = Random::new(6);
    let mut tally = Tally::default();
    let mut other = sound_case(&mut random);
    while tally.pairs < share(PAIRS / 2) {
        let case = sound_case(&mut random);
        for (_, record) in case.records.iter().take(3) {
            tally.count(agree::decide(&other.policy, record));
            let edited = edit(&case.policy, &other.policy, &mut random);
            tally.count(agree::decide(&edited, record));
        }
        other = case;
    }
    let wanted = [
        ("Allowed", PAIRS / 30),
        ("ExplicitlyDenied", PAIRS / 80),
        ("ImplicitlyDenied", PAIRS / 5),
        ("refused 4", PAIRS / 20),
    ];
    tally.at_least("strange pairs", &wanted);
}

/// Policies at a limit or past it, and damaged texts of both kinds.
#[test]
fn damaged_pairs_agree() {
    let mut random = Random::new(7);
    let mut tally = Tally::default();
    while tally.pairs < share(PAIRS) {
        let case = any_case(&mut random);
        for record in &case.records {
            tally.count(agree::decide(&case.policy, record));
        }
    }
    let wanted = [
        ("Allowed", PAIRS / 8),
        ("ExplicitlyDenied", PAIRS / 24),
        ("ImplicitlyDenied", PAIRS / 12),
        ("refused 2", PAIRS / 80),
        ("refused 3", PAIRS / 8),
        ("refused 4", PAIRS / 12),
        ("refused 5", PAIRS / 24),
        ("refused 7", PAIRS / 240),
        ("refused 8", PAIRS / 24),
        ("refused 9", PAIRS / 24),
    ];
    tally.at_least("damaged pairs", &wanted);
}
