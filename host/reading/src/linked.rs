//! The exported functions as the archive has them, and every `unsafe` of this
//! package. Nothing checks these declarations against their source,
//! crates/policy_probe/src/lib.rt: whoever changes one of the two changes both.
//!
//! A slice is passed as the pointer to its first element and its length. No
//! function has a `requires`, so each may be called on anything.

#![allow(unsafe_code)]

/// `Told` of crates/policy_probe: the same fields in the same order, both laid
/// out as C does. A `usize` is 64 bits wide on both sides.
#[repr(C)]
pub struct Told {
    pub refusal: u64,
    pub place: usize,
    pub count: usize,
}

extern "C" {
    fn policy_probe_policy(bytes: *const u8, length: usize, run: *mut u32, room: usize) -> Told;

    fn policy_probe_record(bytes: *const u8, length: usize, run: *mut u32, room: usize) -> Told;
}

pub fn policy(text: &[u8], run: &mut [u32]) -> Told {
    // SAFETY: each pointer and length are of one live slice; the function takes
    // them as `&[u8]` and `&mut [u32]`, is proved to read and write only inside
    // them, and keeps no reference.
    unsafe { policy_probe_policy(text.as_ptr(), text.len(), run.as_mut_ptr(), run.len()) }
}

pub fn record(text: &[u8], run: &mut [u32]) -> Told {
    // SAFETY: as in `policy`.
    unsafe { policy_probe_record(text.as_ptr(), text.len(), run.as_mut_ptr(), run.len()) }
}
