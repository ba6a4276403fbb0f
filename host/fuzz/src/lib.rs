//! A libFuzzer target: every input is a log and a damaged room, on which the
//! proved library and the second implementation must agree. `run` builds it.
//!
//! libFuzzer sees which branches the second implementation takes; the proved
//! archive is not instrumented.

#![deny(unsafe_code)]

#[path = "../../tests/all/proved.rs"]
mod proved;

mod agree;
mod input;
mod seeds;

use input::Input;
use std::ffi::{c_char, c_int};
use std::path::Path;
use std::process;

/// Called by libFuzzer for each input.
///
/// # Safety
///
/// So many bytes stand at the pointer, and nobody changes them during the call.
#[no_mangle]
#[allow(unsafe_code)]
pub unsafe extern "C" fn LLVMFuzzerTestOneInput(bytes: *const u8, length: usize) -> c_int {
    let bytes = if length == 0 {
        &[]
    } else {
        // SAFETY: as the caller promises.
        unsafe { std::slice::from_raw_parts(bytes, length) }
    };
    if let Err(trouble) = agree::check(&Input::read(bytes)) {
        eprintln!("{trouble}");
        process::abort();
    }
    0
}

/// Called by libFuzzer at the start; `seeds FOLDER` writes the first inputs
/// instead of fuzzing.
#[no_mangle]
#[allow(unsafe_code)]
pub extern "C" fn LLVMFuzzerInitialize(_: *mut c_int, _: *mut *mut *mut c_char) -> c_int {
    let arguments: Vec<String> = std::env::args().skip(1).collect();
    if let [word, folder] = &arguments[..] {
        if word == "seeds" {
            let count = seeds::write(Path::new(folder)).expect("seeds can be written");
            println!("{count} seeds");
            process::exit(0);
        }
    }
    0
}
