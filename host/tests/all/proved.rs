//! The proved library as an implementation among others.

use second::implementation::Implementation;
use second::{Decision, Outcome, Refusal};
use trials::{Encoding, Subject};

#[derive(Debug, Clone, Copy)]
pub struct Proved;

/// The proved library under trial.
pub const PROVED: Subject<'static> = Subject {
    implementation: &Proved,
    encoding: Encoding::UpperFirst,
};

impl Implementation for Proved {
    fn decide(&self, policy: &[u8], record: &[u8]) -> Result<Decision, Refusal> {
        let answer = muckposy::decide(policy, record);
        answer.map(decision).map_err(refusal)
    }

    fn feed(&self, policy: &[u8], record: &[u8], room: &mut [u32]) -> Result<Decision, Refusal> {
        let answer = muckposy::feed(policy, record, room);
        answer.map(decision).map_err(refusal)
    }

    fn join(&self, policy: &[u8], room: &mut [u32], other: &[u32]) -> Result<(), Refusal> {
        muckposy::join(policy, room, other).map_err(refusal)
    }

    fn finish(&self, policy: &[u8], room: &[u32], output: &mut [u8]) -> Result<usize, Refusal> {
        muckposy::finish(policy, room, output).map_err(refusal)
    }

    fn restate(&self, policy: &[u8], output: &mut [u8]) -> Result<usize, Refusal> {
        muckposy::restate(policy, output).map_err(refusal)
    }

    fn fresh(&self, room: &mut [u32]) -> Result<(), Refusal> {
        muckposy::fresh(room).map_err(refusal)
    }
}

fn decision(decision: muckposy::Decision) -> Decision {
    let outcome = match decision.outcome {
        muckposy::Outcome::Allowed => Outcome::Allowed,
        muckposy::Outcome::ExplicitlyDenied => Outcome::ExplicitlyDenied,
        muckposy::Outcome::ImplicitlyDenied => Outcome::ImplicitlyDenied,
    };
    let statement = decision.statement;
    Decision { outcome, statement }
}

fn refusal(refusal: muckposy::Refusal) -> Refusal {
    let muckposy::Refusal { number, place } = refusal;
    Refusal { number, place }
}
