//! The six operations as one thing that comparisons can be run over.

use crate::{Decision, Refusal};

/// An implementation of the order. Rooms of different implementations need
/// not look alike; answers and written bytes must.
pub trait Implementation {
    fn decide(&self, policy: &[u8], record: &[u8]) -> Result<Decision, Refusal>;
    fn feed(&self, policy: &[u8], record: &[u8], room: &mut [u32]) -> Result<Decision, Refusal>;
    fn join(&self, policy: &[u8], room: &mut [u32], other: &[u32]) -> Result<(), Refusal>;
    fn finish(&self, policy: &[u8], room: &[u32], output: &mut [u8]) -> Result<usize, Refusal>;
    fn restate(&self, policy: &[u8], output: &mut [u8]) -> Result<usize, Refusal>;
    fn fresh(&self, room: &mut [u32]) -> Result<(), Refusal>;
}

/// The implementation in this crate.
#[derive(Debug, Clone, Copy, Default)]
pub struct Second;

impl Implementation for Second {
    fn decide(&self, policy: &[u8], record: &[u8]) -> Result<Decision, Refusal> {
        crate::decide(policy, record)
    }

    fn feed(&self, policy: &[u8], record: &[u8], room: &mut [u32]) -> Result<Decision, Refusal> {
        crate::feed(policy, record, room)
    }

    fn join(&self, policy: &[u8], room: &mut [u32], other: &[u32]) -> Result<(), Refusal> {
        crate::join(policy, room, other)
    }

    fn finish(&self, policy: &[u8], room: &[u32], output: &mut [u8]) -> Result<usize, Refusal> {
        crate::finish(policy, room, output)
    }

    fn restate(&self, policy: &[u8], output: &mut [u8]) -> Result<usize, Refusal> {
        crate::restate(policy, output)
    }

    fn fresh(&self, room: &mut [u32]) -> Result<(), Refusal> {
        crate::fresh(room)
    }
}
