//! Implementations that are wrong in some plain way.

use second::fault::{self, Fault};
use second::implementation::{Implementation, Second};
use second::{Decision, Outcome, Refusal};

/// The ways to be wrong, and a list of all of them.
macro_rules! wrong {
    ($($way:ident),+ $(,)?) => {
        #[derive(Debug, Clone, Copy, PartialEq, Eq)]
        pub enum Wrong {
            $($way),+
        }

        pub const ALL: &[Wrong] = &[$($way),+];
    };
}

wrong! {
    RefusesAlways,
    AllowsAlways,
    FeedsNothing,
    FeedsOnce,
    JoinsNothing,
    JoinsOver,
    JoinsAnything,
    FinishesUnrefined,
    FinishesFixed,
    FinishesByOne,
    WritesBehind,
    WritesWhenRefused,
    ChangesWhenRefused,
    ForgetsPlaces,
    LeavesOneNumber,
}

use Wrong::*;

/// What `FinishesFixed` writes, whatever the policy.
const FIXED: &[u8] =
    br#"{"Version":"2012-10-17","Statement":[{"Effect":"Allow","Action":["a:b"],"Resource":["*"]}]}"#;

pub struct Imitation(pub Wrong);

impl Imitation {
    fn is(&self, wrong: Wrong) -> bool {
        self.0 == wrong
    }

    fn answer<T>(&self, answer: Result<T, Refusal>) -> Result<T, Refusal> {
        match answer {
            Err(refusal) if self.is(ForgetsPlaces) => Err(Refusal {
                place: 0,
                ..refusal
            }),
            answer => answer,
        }
    }

    /// Refuses by this number, if it is the one that always refuses.
    fn refuses(&self, number: u32) -> Result<(), Refusal> {
        match self.0 {
            RefusesAlways => Err(Refusal { number, place: 0 }),
            _ => Ok(()),
        }
    }

    fn decided(&self, decision: Decision) -> Decision {
        match self.0 {
            AllowsAlways => Decision {
                outcome: Outcome::Allowed,
                statement: 1,
            },
            _ => decision,
        }
    }
}

impl Implementation for Imitation {
    fn decide(&self, policy: &[u8], record: &[u8]) -> Result<Decision, Refusal> {
        self.refuses(9)?;
        let answer = self.answer(Second.decide(policy, record));
        answer.map(|decision| self.decided(decision))
    }

    fn feed(&self, policy: &[u8], record: &[u8], room: &mut [u32]) -> Result<Decision, Refusal> {
        self.refuses(9)?;
        let before = room.to_vec();
        let answer = self.answer(Second.feed(policy, record, room));
        let fed_before = before.iter().any(|&number| number != 0);
        if self.is(FeedsNothing) || self.is(FeedsOnce) && fed_before {
            room.copy_from_slice(&before);
        }
        if answer.is_err() && self.is(ChangesWhenRefused) {
            room.fill(0);
            room.iter_mut().take(1).for_each(|number| *number = 1);
        }
        answer.map(|decision| self.decided(decision))
    }

    fn join(&self, policy: &[u8], room: &mut [u32], other: &[u32]) -> Result<(), Refusal> {
        self.refuses(6)?;
        let before = room.to_vec();
        let answer = self.answer(Second.join(policy, room, other));
        if self.is(JoinsAnything) && answer == Err(Refusal::ROOM_CONTENT) {
            return Ok(());
        }
        answer?;
        match self.0 {
            JoinsNothing => room.copy_from_slice(&before),
            JoinsOver => room.copy_from_slice(other),
            _ => {}
        }
        Ok(())
    }

    fn finish(&self, policy: &[u8], room: &[u32], output: &mut [u8]) -> Result<usize, Refusal> {
        self.refuses(11)?;
        let length = self.answer(Second.finish(policy, room, output))?;
        match self.0 {
            FinishesUnrefined => Second.restate(policy, output),
            FinishesFixed => {
                let first = output.get_mut(..FIXED.len());
                first
                    .ok_or(Refusal::OUTPUT_TOO_SHORT)?
                    .copy_from_slice(FIXED);
                Ok(FIXED.len())
            }
            FinishesByOne => Ok(length + 1),
            WritesBehind => {
                output[length..]
                    .iter_mut()
                    .take(1)
                    .for_each(|byte| *byte = 0);
                Ok(length)
            }
            _ => Ok(length),
        }
    }

    fn restate(&self, policy: &[u8], output: &mut [u8]) -> Result<usize, Refusal> {
        self.refuses(11)?;
        let answer = self.answer(Second.restate(policy, output));
        if answer.is_err() && self.is(WritesWhenRefused) {
            output.iter_mut().take(1).for_each(|byte| *byte = b'{');
        }
        answer
    }

    fn fresh(&self, room: &mut [u32]) -> Result<(), Refusal> {
        self.refuses(1)?;
        self.answer(Second.fresh(room))?;
        if self.is(LeavesOneNumber) {
            room[16_383] = 1;
        }
        Ok(())
    }
}

/// The second implementation with one of its faults switched on.
pub struct Faulty(pub Fault);

impl Implementation for Faulty {
    fn decide(&self, policy: &[u8], record: &[u8]) -> Result<Decision, Refusal> {
        fault::with(self.0, || Second.decide(policy, record))
    }

    fn feed(&self, policy: &[u8], record: &[u8], room: &mut [u32]) -> Result<Decision, Refusal> {
        fault::with(self.0, || Second.feed(policy, record, room))
    }

    fn join(&self, policy: &[u8], room: &mut [u32], other: &[u32]) -> Result<(), Refusal> {
        fault::with(self.0, || Second.join(policy, room, other))
    }

    fn finish(&self, policy: &[u8], room: &[u32], output: &mut [u8]) -> Result<usize, Refusal> {
        fault::with(self.0, || Second.finish(policy, room, output))
    }

    fn restate(&self, policy: &[u8], output: &mut [u8]) -> Result<usize, Refusal> {
        fault::with(self.0, || Second.restate(policy, output))
    }

    fn fresh(&self, room: &mut [u32]) -> Result<(), Refusal> {
        fault::with(self.0, || Second.fresh(room))
    }
}
