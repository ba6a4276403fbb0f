//! A seeded generator of policies, records, logs and damaged texts.
//!
//! Everything follows from the seed. A plan says what a text means without
//! saying how it is spelled; rendering spells it in one of many ways. That a
//! plan is known beside its text is what lets `model` say the right answers
//! without reading any JSON.

pub mod damage;
pub mod edits;
pub mod plan;
pub mod planner;
pub mod random;
pub mod render;
pub mod requests;
pub mod share;
pub mod stock;
pub mod tree;

use damage::{damage_policy, damage_record};
use plan::{PlannedPolicy, PlannedRecord};
use random::Random;

/// A policy text and records, some of them damaged.
#[derive(Debug, Clone)]
pub struct Case {
    pub policy: Vec<u8>,
    pub records: Vec<Vec<u8>>,
}

/// A policy with records that match or nearly match it, none damaged.
#[derive(Debug, Clone)]
pub struct SoundCase {
    pub plan: PlannedPolicy,
    pub policy: Vec<u8>,
    pub records: Vec<(PlannedRecord, Vec<u8>)>,
}

/// A case of which both the meaning and the text are known.
pub fn sound_case(random: &mut Random) -> SoundCase {
    let plan = planner::policy(random);
    case_of(plan, random)
}

fn case_of(plan: PlannedPolicy, random: &mut Random) -> SoundCase {
    let policy = render::policy(&plan, random);
    let count = random.below(12);
    let records = (0..count)
        .map(|_| {
            let record = requests::record(&plan, random);
            let text = render::record(&record, random);
            (record, text)
        })
        .collect();
    SoundCase {
        plan,
        policy,
        records,
    }
}

/// A case for comparing implementations on any bytes: some policies at a limit
/// or past it, and half of the policies and a third of the records damaged.
pub fn any_case(random: &mut Random) -> Case {
    let mut plan = planner::policy(random);
    if random.chance(1, 5) {
        planner::bring_to_a_limit(&mut plan, random);
    }
    let sound = case_of(plan, random);
    let policy = match random.chance(1, 2) {
        true => damage_policy(&sound.policy, random),
        false => sound.policy,
    };
    let records = sound.records.into_iter().map(|(_, text)| {
        if random.chance(1, 3) {
            damage_record(&text, random)
        } else {
            text
        }
    });
    let records = records.collect();
    Case { policy, records }
}
