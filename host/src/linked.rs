//! The exported functions as the archive has them, and every `unsafe` of this
//! crate. A linker does not compare these declarations with their source,
//! crates/refine_c/src/lib.rt: tests/all/header.rs does, and include/muckposy.h
//! with both.
//!
//! A slice is passed as the pointer to its first element and its length. No
//! function has a `requires`, so each may be called on anything.

#![allow(unsafe_code)]

/// `Reply` of crates/refine: the same fields in the same order, both laid out
/// as C does. A `usize` is 64 bits wide on both sides.
#[repr(C)]
pub struct Reply {
    pub number: u64,
    pub place: usize,
    pub decision: u64,
    pub detail: usize,
}

extern "C" {
    fn muckposy_decide(
        policy: *const u8,
        policy_length: usize,
        record: *const u8,
        record_length: usize,
    ) -> Reply;

    fn muckposy_feed(
        policy: *const u8,
        policy_length: usize,
        record: *const u8,
        record_length: usize,
        room: *mut u32,
        room_length: usize,
    ) -> Reply;

    fn muckposy_join(
        policy: *const u8,
        policy_length: usize,
        room: *mut u32,
        room_length: usize,
        other: *const u32,
        other_length: usize,
    ) -> Reply;

    fn muckposy_finish(
        policy: *const u8,
        policy_length: usize,
        room: *const u32,
        room_length: usize,
        output: *mut u8,
        output_length: usize,
    ) -> Reply;

    fn muckposy_restate(
        policy: *const u8,
        policy_length: usize,
        output: *mut u8,
        output_length: usize,
    ) -> Reply;

    fn muckposy_fresh(room: *mut u32, room_length: usize) -> Reply;
}

pub fn decide(policy: &[u8], record: &[u8]) -> Reply {
    // SAFETY: each pointer and length are of one live slice; the function takes
    // them as `&[u8]`, is proved to read only inside them, and keeps no
    // reference.
    unsafe { muckposy_decide(policy.as_ptr(), policy.len(), record.as_ptr(), record.len()) }
}

pub fn feed(policy: &[u8], record: &[u8], room: &mut [u32]) -> Reply {
    // SAFETY: as in `decide`; the room is taken as `&mut [u32]`, and nothing is
    // written outside it. It was borrowed alone, so nothing else reads it.
    unsafe {
        muckposy_feed(
            policy.as_ptr(),
            policy.len(),
            record.as_ptr(),
            record.len(),
            room.as_mut_ptr(),
            room.len(),
        )
    }
}

pub fn join(policy: &[u8], room: &mut [u32], other: &[u32]) -> Reply {
    // SAFETY: as in `feed`; the other room is taken as `&[u32]`, and cannot be
    // the one that is written, which was borrowed alone.
    unsafe {
        muckposy_join(
            policy.as_ptr(),
            policy.len(),
            room.as_mut_ptr(),
            room.len(),
            other.as_ptr(),
            other.len(),
        )
    }
}

pub fn finish(policy: &[u8], room: &[u32], output: &mut [u8]) -> Reply {
    // SAFETY: as in `feed`, with a room that is only read and an output of bytes.
    unsafe {
        muckposy_finish(
            policy.as_ptr(),
            policy.len(),
            room.as_ptr(),
            room.len(),
            output.as_mut_ptr(),
            output.len(),
        )
    }
}

pub fn restate(policy: &[u8], output: &mut [u8]) -> Reply {
    // SAFETY: as in `feed`, with an output of bytes.
    unsafe {
        muckposy_restate(
            policy.as_ptr(),
            policy.len(),
            output.as_mut_ptr(),
            output.len(),
        )
    }
}

pub fn fresh(room: &mut [u32]) -> Reply {
    // SAFETY: as in `feed`.
    unsafe { muckposy_fresh(room.as_mut_ptr(), room.len()) }
}
