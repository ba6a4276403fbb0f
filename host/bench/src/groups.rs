//! What is measured: groups of kernels that do the same on the same bytes.

use crate::{operations, scans};

/// All calls of a kernel, so often.
pub type Repeat = Box<dyn FnMut(usize)>;

pub struct Kernel {
    pub name: &'static str,
    pub repeat: Repeat,
}

/// The proved kernel comes first.
pub struct Group {
    /// The operation, and the texts that it is done on.
    pub operation: &'static str,
    pub texts: &'static str,
    /// How many calls one repetition makes.
    pub calls: usize,
    /// How many bytes of its texts a call reads, on average.
    pub bytes: f64,
    pub kernels: Vec<Kernel>,
}

/// One kernel by the names of its operation and texts, and its own.
pub fn find(operation: &str, texts: &str, kernel: &str) -> Option<Repeat> {
    match operation {
        "scan" => scans::find(texts, kernel),
        _ => operations::find(operation, texts, kernel),
    }
}
