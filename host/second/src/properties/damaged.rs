//! Any bytes: whatever is refused is refused by the lowest number that
//! applies, and leaves everything lent as it was.

use super::{ensure, show, written, Check};
use crate::corpus::{ANY_POLICY, ANY_RECORD};
use crate::generate::random::Random;
use crate::generate::{any_case, Case};
use crate::implementation::Implementation;
use crate::limits::ROOM_NUMBERS;
use crate::model::json;
use crate::{Refusal, Scan};

pub fn check(implementation: &dyn Implementation, random: &mut Random) -> Check {
    let case = any_case(random);
    let trial = Trial {
        implementation,
        case: &case,
    };
    trial
        .all(random)
        .map_err(|trouble| format!("{trouble}\npolicy {}", show(&case.policy)))
}

struct Trial<'a> {
    implementation: &'a dyn Implementation,
    case: &'a Case,
}

impl Trial<'_> {
    fn all(&self, random: &mut Random) -> Check {
        let policy = self.policy_refusal();
        self.is_placed(policy, 3, &self.case.policy)?;
        let mut room = vec![0; ROOM_NUMBERS];
        for record in &self.case.records {
            let refusal = self.implementation.decide(ANY_POLICY, record).err();
            self.is_placed(refusal, 8, record)?;
            self.decides_and_feeds(policy.or(refusal), record, &mut room)?;
        }
        self.room_length_is_first(random)?;
        self.bad_room_is_after_policy(policy)?;
        self.outputs(policy, &room)
    }

    /// The refusal that reading the policy gives, whatever else is asked.
    fn policy_refusal(&self) -> Option<Refusal> {
        self.implementation
            .decide(&self.case.policy, ANY_RECORD)
            .err()
    }

    /// The place is where the model's scan breaks, and 0 for other refusals.
    fn is_placed(&self, refusal: Option<Refusal>, number: u32, text: &[u8]) -> Check {
        let too_long = refusal.is_some_and(|refusal| refusal.number == number - 1);
        let expected = match json::scan(text) {
            Scan::Breaks(place) if !too_long => Some(Refusal { number, place }),
            _ => refusal.filter(|refusal| refusal.number != number && refusal.place == 0),
        };
        ensure(refusal == expected, || {
            format!("{refusal:?} for {}, not {expected:?}", show(text))
        })
    }

    fn decides_and_feeds(
        &self,
        refusal: Option<Refusal>,
        record: &[u8],
        room: &mut [u32],
    ) -> Check {
        let before = room.to_vec();
        let decided = self.implementation.decide(&self.case.policy, record);
        let fed = self.implementation.feed(&self.case.policy, record, room);
        let kept = fed.is_ok() || room == before;
        ensure(decided == fed && fed.err() == refusal && kept, || {
            let record = show(record);
            format!("decide {decided:?}, feed {fed:?}, expected refusal {refusal:?} on {record}")
        })
    }

    fn room_length_is_first(&self, random: &mut Random) -> Check {
        let policy = &self.case.policy;
        let length = *random.pick(&[0, 1, ROOM_NUMBERS - 1, ROOM_NUMBERS + 1]);
        let (mut wrong, mut right) = (vec![9; length], vec![9; ROOM_NUMBERS]);
        let answers = [
            self.implementation.feed(policy, b"", &mut wrong).err(),
            self.implementation.join(policy, &mut wrong, &right).err(),
            self.implementation.join(policy, &mut right, &wrong).err(),
            self.implementation.finish(policy, &wrong, &mut []).err(),
            self.implementation.fresh(&mut wrong).err(),
        ];
        let refused = answers
            .iter()
            .all(|answer| *answer == Some(Refusal::ROOM_LENGTH));
        let kept = wrong.iter().chain(&right).all(|&number| number == 9);
        ensure(refused && kept, || format!("room of {length}: {answers:?}"))
    }

    /// A room full of nonsense is refused by 6, unless the policy is refused.
    fn bad_room_is_after_policy(&self, refusal: Option<Refusal>) -> Check {
        let policy = &self.case.policy;
        let (mut bad, mut good) = (vec![9; ROOM_NUMBERS], vec![0; ROOM_NUMBERS]);
        let answers = [
            self.implementation.feed(policy, b"", &mut bad).err(),
            self.implementation.join(policy, &mut bad, &good).err(),
            self.implementation.join(policy, &mut good, &bad).err(),
            self.implementation.finish(policy, &bad, &mut []).err(),
        ];
        let expected = refusal.or(Some(Refusal::ROOM_CONTENT));
        let refused = answers.iter().all(|answer| *answer == expected);
        let kept = bad.iter().all(|&n| n == 9) && good.iter().all(|&n| n == 0);
        ensure(refused && kept, || {
            format!("bad room: {answers:?}, not {expected:?}")
        })
    }

    /// What is refused for the output is refused after everything else, and
    /// what is written reads as a policy.
    fn outputs(&self, refusal: Option<Refusal>, room: &[u32]) -> Check {
        let policy = &self.case.policy;
        let restate: super::Write = &|output| self.implementation.restate(policy, output);
        let finish: super::Write = &|output| self.implementation.finish(policy, room, output);
        for (what, write) in [("restate", restate), ("finish", finish)] {
            let found = written(what, write)?;
            let short = write(&mut []);
            match found {
                Ok(text) => {
                    ensure(short == Err(Refusal::OUTPUT_TOO_SHORT), || {
                        format!("{what}: {short:?}")
                    })?;
                    let read = self.implementation.decide(&text, ANY_RECORD);
                    ensure(read.is_ok(), || {
                        format!("{what}: unreadable {}", show(&text))
                    })?;
                }
                Err(found) => {
                    let expected = refusal.map_or(found.number > 9, |refusal| refusal == found);
                    ensure(expected && short == Err(found), || {
                        format!("{what}: {found:?}, {short:?}")
                    })?;
                }
            }
        }
        Ok(())
    }
}
