//! The six operations, each with its refusals in rising order.

use crate::decision::{self, Decision, Outcome};
use crate::fault::{self, Fault};
use crate::json::{Scan, Source, Tape};
use crate::limits::{POLICY_BYTES, RECORD_BYTES, RESULT_BYTES, ROOM_NUMBERS};
use crate::members::Mismatch;
use crate::policy::Policy;
use crate::policy_layout;
use crate::record_layout::Record;
use crate::refusal::Refusal;
use crate::{room as rooms, written_form};
use std::cell::RefCell;

thread_local! {
    /// The stores of the latest call on this thread, kept to be filled again.
    static DESK: RefCell<Desk> = RefCell::default();
}

/// Everything that reading texts needs room for. It keeps the policy that was
/// read last, so that whoever calls its operations pays for reading once; those
/// that take rooms trust them to fit that policy.
#[derive(Debug, Default)]
pub struct Desk {
    tape: Tape,
    policy: Policy,
    record: Record,
    written: Vec<u8>,
}

/// The decision on a record.
pub fn decide(policy: &[u8], record: &[u8]) -> Result<Decision, Refusal> {
    at_desk(|desk| {
        desk.read_policy(policy)?;
        desk.decide(record)
    })
}

/// The decision on a record, which is charged to the room if it is allowed.
pub fn feed(policy: &[u8], record: &[u8], room: &mut [u32]) -> Result<Decision, Refusal> {
    check_length(room)?;
    at_desk(|desk| {
        desk.read_policy(policy)?;
        desk.check_room(room)?;
        desk.feed(record, room)
    })
}

/// Takes what another room holds into the first.
pub fn join(policy: &[u8], room: &mut [u32], other: &[u32]) -> Result<(), Refusal> {
    check_length(room)?;
    check_length(other)?;
    at_desk(|desk| {
        desk.read_policy(policy)?;
        desk.check_room(room)?;
        desk.check_room(other)?;
        desk.join(room, other);
        Ok(())
    })
}

/// Writes the refined policy and answers its length.
pub fn finish(policy: &[u8], room: &[u32], output: &mut [u8]) -> Result<usize, Refusal> {
    check_length(room)?;
    at_desk(|desk| {
        desk.read_policy(policy)?;
        desk.check_room(room)?;
        hand_over(desk.finish(room)?, output)
    })
}

/// Writes the policy unrefined and answers its length.
pub fn restate(policy: &[u8], output: &mut [u8]) -> Result<usize, Refusal> {
    at_desk(|desk| {
        desk.read_policy(policy)?;
        hand_over(desk.restate()?, output)
    })
}

/// Makes a room empty.
pub fn fresh(room: &mut [u32]) -> Result<(), Refusal> {
    check_length(room)?;
    room.fill(0);
    Ok(())
}

/// Reads a policy only to look at it.
pub fn with_policy<T>(text: &[u8], look: impl FnOnce(&Policy) -> T) -> Result<T, Refusal> {
    at_desk(|desk| {
        desk.read_policy(text)?;
        Ok(look(&desk.policy))
    })
}

/// Reads a record only to look at it.
pub fn with_record<T>(text: &[u8], look: impl FnOnce(&Record) -> T) -> Result<T, Refusal> {
    at_desk(|desk| {
        desk.read_record(text)?;
        Ok(look(&desk.record))
    })
}

fn at_desk<T>(run: impl FnOnce(&mut Desk) -> T) -> T {
    DESK.with_borrow_mut(run)
}

impl Desk {
    /// Refusals 2 to 5.
    pub fn read_policy(&mut self, text: &[u8]) -> Result<(), Refusal> {
        if text.len() > POLICY_BYTES {
            return Err(Refusal::POLICY_TOO_LONG);
        }
        match self.tape.scan(text) {
            Scan::Breaks(place) => return Err(Refusal::policy_breaks(place)),
            Scan::TooDeep => return Err(Refusal::POLICY_LAYOUT),
            Scan::Whole => {}
        }
        let source = Source::new(text, &self.tape);
        policy_layout::read(source, &mut self.policy).map_err(|mismatch| match mismatch {
            Mismatch::Layout => Refusal::POLICY_LAYOUT,
            Mismatch::Limit => Refusal::POLICY_LIMIT,
        })
    }

    /// Refusals 7 to 9.
    pub fn read_record(&mut self, text: &[u8]) -> Result<(), Refusal> {
        if text.len() > RECORD_BYTES {
            return Err(Refusal::RECORD_TOO_LONG);
        }
        match self.tape.scan(text) {
            Scan::Breaks(place) => return Err(Refusal::record_breaks(place)),
            Scan::TooDeep => return Err(Refusal::RECORD_LAYOUT),
            Scan::Whole => {}
        }
        let source = Source::new(text, &self.tape);
        let read = self.record.read(source);
        read.map_err(|_| Refusal::RECORD_LAYOUT)
    }

    /// Decides under the policy read last.
    pub fn decide(&mut self, record: &[u8]) -> Result<Decision, Refusal> {
        self.read_record(record)?;
        Ok(decision::decide(&self.policy, &self.record))
    }

    /// Feeds under the policy read last, into a room that fits it.
    pub fn feed(&mut self, record: &[u8], room: &mut [u32]) -> Result<Decision, Refusal> {
        let decision = self.decide(record)?;
        if decision.outcome == Outcome::Allowed || fault::is_on(Fault::DeniedCharged) {
            rooms::charge(&self.policy, &self.record, room);
        }
        Ok(decision)
    }

    /// Joins two rooms that fit the policy read last.
    pub fn join(&self, room: &mut [u32], other: &[u32]) {
        rooms::join(&self.policy, room, other);
    }

    /// The refined policy, for a room that fits the policy read last.
    pub fn finish(&mut self, room: &[u32]) -> Result<&[u8], Refusal> {
        self.written.clear();
        if !written_form::finish(&self.policy, room, &mut self.written) {
            return Err(Refusal::NO_ALLOW_LEFT);
        }
        check_result(&self.written)
    }

    /// The policy read last, unrefined.
    pub fn restate(&mut self) -> Result<&[u8], Refusal> {
        self.written.clear();
        written_form::restate(&self.policy, &mut self.written);
        check_result(&self.written)
    }

    fn check_room(&self, room: &[u32]) -> Result<(), Refusal> {
        if rooms::fits(&self.policy, room) {
            Ok(())
        } else {
            Err(Refusal::ROOM_CONTENT)
        }
    }
}

fn check_length(room: &[u32]) -> Result<(), Refusal> {
    if room.len() == ROOM_NUMBERS {
        Ok(())
    } else {
        Err(Refusal::ROOM_LENGTH)
    }
}

fn check_result(written: &[u8]) -> Result<&[u8], Refusal> {
    if written.len() <= RESULT_BYTES {
        Ok(written)
    } else {
        Err(Refusal::RESULT_TOO_LONG)
    }
}

/// Copies a result to the first bytes of the output.
fn hand_over(written: &[u8], output: &mut [u8]) -> Result<usize, Refusal> {
    let first = output.get_mut(..written.len());
    first
        .ok_or(Refusal::OUTPUT_TOO_SHORT)?
        .copy_from_slice(written);
    Ok(written.len())
}
