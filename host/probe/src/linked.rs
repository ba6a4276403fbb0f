//! The exported functions as the archive has them, and every `unsafe` of this
//! package. Nothing checks these declarations against their source,
//! crates/text_probe/src/lib.rt: whoever changes one of the two changes both.
//!
//! A slice is passed as the pointer to its first element and its length. No
//! function has a `requires`, so each may be called on anything.

#![allow(unsafe_code)]

/// `Answer` of crates/text_probe: the same fields in the same order, both laid
/// out as C does. A `usize` is 64 bits wide on both sides.
#[repr(C)]
pub struct Answer {
    pub which: u64,
    pub number: usize,
}

extern "C" {
    fn text_probe_scan(bytes: *const u8, length: usize) -> Answer;

    fn text_probe_decode(bytes: *const u8, length: usize, out: *mut u32, room: usize) -> Answer;

    fn text_probe_write(numbers: *const u32, length: usize, out: *mut u8, room: usize) -> Answer;
}

pub fn scan(text: &[u8]) -> Answer {
    // SAFETY: pointer and length are of one live slice; the function takes it
    // as `&[u8]`, is proved to read only inside it, and keeps no reference.
    unsafe { text_probe_scan(text.as_ptr(), text.len()) }
}

pub fn decode(raw: &[u8], out: &mut [u32]) -> Answer {
    // SAFETY: as in `scan`; the second slice is lent as `&mut`, so nothing
    // else refers to it, and the function is proved to write only inside it.
    unsafe { text_probe_decode(raw.as_ptr(), raw.len(), out.as_mut_ptr(), out.len()) }
}

pub fn write(characters: &[u32], out: &mut [u8]) -> Answer {
    let (from, to) = (characters.as_ptr(), out.as_mut_ptr());
    // SAFETY: as in `decode`.
    unsafe { text_probe_write(from, characters.len(), to, out.len()) }
}
