//! Sound cases: every answer is known from the plan.

use super::{ensure, show, writes, written, Check};
use crate::generate::plan::PlannedRecord;
use crate::generate::random::Random;
use crate::generate::{render, requests, sound_case, SoundCase};
use crate::implementation::Implementation;
use crate::limits::{POLICY_BYTES, RECORD_BYTES, ROOM_NUMBERS};
use crate::model::{Expected, Model};
use crate::{Decision, Outcome, Refusal};

struct Trial<'a> {
    implementation: &'a dyn Implementation,
    case: &'a SoundCase,
}

pub fn check(implementation: &dyn Implementation, random: &mut Random) -> Check {
    let case = sound_case(random);
    let trial = Trial {
        implementation,
        case: &case,
    };
    let checked = match case.policy.len() > POLICY_BYTES {
        true => trial.is_too_long(),
        false => trial.all(random),
    };
    checked.map_err(|trouble| format!("{trouble}\npolicy {}", show(&case.policy)))
}

impl Trial<'_> {
    fn is_too_long(&self) -> Check {
        let refused = self.implementation.restate(&self.case.policy, &mut []);
        ensure(refused == Err(Refusal::POLICY_TOO_LONG), || {
            "not refused by 2".to_owned()
        })
    }

    fn all(&self, random: &mut Random) -> Check {
        let mut model = Model::new(&self.case.plan);
        let room = self.feeds_as_the_model(&mut model)?;
        let policy = &self.case.policy;
        let restate: super::Write = &|output| self.implementation.restate(policy, output);
        writes("restate", restate, &model.restate())?;
        let finish: super::Write = &|output| self.implementation.finish(policy, &room, output);
        writes("finish", finish, &model.finish())?;
        self.parts_make_the_whole(&room, random)?;
        if let Expected::Written(text) = model.restate() {
            self.restated_alike(text.as_bytes())?;
        }
        if let Expected::Written(text) = model.finish() {
            self.refined(text.as_bytes(), &model, random)?;
        }
        Ok(())
    }

    /// Decide and Feed answer as the model; the room fed is given back.
    fn feeds_as_the_model(&self, model: &mut Model) -> Result<Vec<u32>, String> {
        let mut room = vec![7; ROOM_NUMBERS];
        let emptied = self.implementation.fresh(&mut room);
        let empty = emptied.is_ok() && room.iter().all(|&number| number == 0);
        ensure(empty, || "fresh does not empty the room".to_owned())?;
        for (plan, text) in &self.case.records {
            let expected = match text.len() > RECORD_BYTES {
                true => Err(Refusal::RECORD_TOO_LONG),
                false => Ok(model.feed(plan)),
            };
            let decided = self.implementation.decide(&self.case.policy, text);
            let fed = self.implementation.feed(&self.case.policy, text, &mut room);
            ensure(decided == expected && fed == expected, || {
                let text = show(text);
                format!("expected {expected:?}, decide {decided:?}, feed {fed:?} on {text}")
            })?;
        }
        Ok(room)
    }

    /// A log cut into parts, fed apart and joined in any order, some parts
    /// twice, leaves the room that the whole log leaves.
    fn parts_make_the_whole(&self, whole: &[u32], random: &mut Random) -> Check {
        let mut order: Vec<&[u8]> = self
            .case
            .records
            .iter()
            .map(|(_, t)| t.as_slice())
            .collect();
        random.shuffle(&mut order);
        let mut parts = vec![vec![0; ROOM_NUMBERS]; random.between(1, 4)];
        for record in order {
            let part = random.below(parts.len());
            // Refused records change no part, as they change no whole.
            let _ = self
                .implementation
                .feed(&self.case.policy, record, &mut parts[part]);
        }
        let mut joins: Vec<usize> = (0..parts.len()).collect();
        joins.extend((0..2).map(|_| random.below(parts.len())));
        random.shuffle(&mut joins);
        let mut room = vec![0; ROOM_NUMBERS];
        for part in joins {
            let joined = self
                .implementation
                .join(&self.case.policy, &mut room, &parts[part]);
            ensure(joined.is_ok(), || format!("join refused: {joined:?}"))?;
        }
        ensure(room == whole, || {
            "joined parts differ from the whole".to_owned()
        })
    }

    /// A restated policy decides as before and restates as itself.
    fn restated_alike(&self, restated: &[u8]) -> Check {
        self.is_fixed("restated", restated)?;
        for (_, record) in &self.case.records {
            let before = self.implementation.decide(&self.case.policy, record);
            let after = self.implementation.decide(restated, record);
            ensure(before == after, || {
                format!("restated {after:?}, before {before:?} on {}", show(record))
            })?;
        }
        Ok(())
    }

    fn is_fixed(&self, what: &str, text: &[u8]) -> Check {
        let again = written(what, &|output| self.implementation.restate(text, output))?;
        let same = again.as_deref() == Ok(text);
        ensure(same, || {
            format!("{what} policy restates otherwise: {}", show(text))
        })
    }

    /// A finished policy allows what was logged and allowed, and on other
    /// requests nothing that the original does not.
    fn refined(&self, finished: &[u8], model: &Model, random: &mut Random) -> Check {
        self.is_fixed("finished", finished)?;
        for (plan, text) in &self.case.records {
            if text.len() <= RECORD_BYTES {
                let (before, after) = (model.decide(plan), self.outcome(finished, text)?);
                ensure(before.outcome == after, || {
                    format!(
                        "logged {text:?}: was {before:?}, is {after:?}",
                        text = show(text)
                    )
                })?;
            }
        }
        for _ in 0..6 {
            let plan = self.another_record(random);
            let text = render::record(&plan, random);
            if text.len() <= RECORD_BYTES {
                self.is_narrower(model.decide(&plan), self.outcome(finished, &text)?, &text)?;
            }
        }
        Ok(())
    }

    /// A request near the policy, or near one that was logged.
    fn another_record(&self, random: &mut Random) -> PlannedRecord {
        let fresh = requests::record(&self.case.plan, random);
        if self.case.records.is_empty() || random.chance(1, 2) {
            return fresh;
        }
        let (mut logged, _) = random.pick(&self.case.records).clone();
        match random.below(3) {
            0 => logged.action = fresh.action,
            1 => logged.resource = fresh.resource,
            _ => logged.context = fresh.context,
        }
        logged
    }

    fn is_narrower(&self, before: Decision, after: Outcome, text: &[u8]) -> Check {
        let denied_alike =
            (before.outcome == Outcome::ExplicitlyDenied) == (after == Outcome::ExplicitlyDenied);
        let nothing_new = after != Outcome::Allowed || before.outcome == Outcome::Allowed;
        ensure(denied_alike && nothing_new, || {
            format!("{}: was {before:?}, is {after:?}", show(text))
        })
    }

    fn outcome(&self, policy: &[u8], record: &[u8]) -> Result<Outcome, String> {
        let decided = self.implementation.decide(policy, record);
        decided
            .map(|decision| decision.outcome)
            .map_err(|refusal| refusal.to_string())
    }
}
