//! Policies as a seed gives them, sound, edited and damaged.

use super::{ROOM, TOO_SHORT};
use crate::agree::{self, shown};
use second::generate::damage::damage_policy;
use second::generate::random::Random;
use second::generate::share::share;
use second::generate::{planner, render, sound_case};
use second::model::{Expected, Model};
use trials::changes::changes;
use trials::tally::Tally;

const TEXTS: usize = 24_000;

/// Restates a text; what is written is restated as itself, fits its own length
/// and no shorter one.
pub fn check(text: &[u8], random: &mut Random, tally: &mut Tally) {
    let answer = agree::restate(text, ROOM);
    if let Ok(written) = &answer {
        let shorter = random.below(written.len());
        for length in [written.len() - 1, shorter] {
            assert_eq!(agree::restate(text, length), Err(TOO_SHORT));
        }
        assert_eq!(agree::restate(written, written.len()), answer);
    }
    tally.count(answer);
}

#[test]
fn generated_policies_agree() {
    let mut random = Random::new(10);
    let mut tally = Tally::default();
    let mut other = b"[]".to_vec();
    while tally.texts() < share(TEXTS) {
        let mut plan = planner::policy(&mut random);
        if random.chance(1, 5) {
            planner::bring_to_a_limit(&mut plan, &mut random);
        }
        let text = render::policy(&plan, &mut random);
        for changed in changes(&text, &other, damage_policy, &mut random) {
            check(&changed, &mut random, &mut tally);
        }
        other = text;
    }
    let wanted = [
        (0, TEXTS / 4),
        (2, TEXTS / 120),
        (3, TEXTS / 20),
        (4, TEXTS / 5),
        (5, TEXTS / 24),
        (11, TEXTS / 120),
    ];
    tally.at_least("policies restated", &wanted);
}

/// The model knows from the plan what is to be written, without reading a text.
#[test]
fn sound_policies_are_written_as_the_model_says() {
    let mut random = Random::new(11);
    let mut tally = Tally::default();
    while tally.texts() < share(TEXTS / 2) {
        let plan = planner::policy(&mut random);
        let text = render::policy(&plan, &mut random);
        let answer = agree::restate(&text, ROOM);
        let expected = match Model::new(&plan).restate() {
            _ if text.len() > 16_384 => Err(2),
            Expected::Written(written) => Ok(written.into_bytes()),
            Expected::Refused(number) => Err(number),
        };
        let found = answer.clone().map_err(|refusal| refusal.number);
        assert_eq!(found, expected);
        tally.count(answer);
    }
    tally.at_least(
        "sound policies restated",
        &[(0, TEXTS / 3), (11, TEXTS / 80)],
    );
}

/// A policy and what is written of it decide alike.
#[test]
fn what_is_written_decides_alike() {
    let mut random = Random::new(14);
    let mut pairs = 0;
    while pairs < share(TEXTS / 4) {
        let case = sound_case(&mut random);
        let Ok(written) = agree::restate(&case.policy, ROOM) else {
            continue;
        };
        for (_, record) in &case.records {
            let decided = [&case.policy, &written].map(|policy| agree::decide(policy, record));
            assert_eq!(decided[0], decided[1], "{}", shown(&[&case.policy, record]));
            pairs += 1;
        }
    }
}
