//! The scan: each kernel says whether a text is JSON.

use crate::groups::{Group, Kernel, Repeat};
use crate::texts::{samples, Sample};
use second::Scan;
use serde::de::IgnoredAny;
use std::hint::black_box;
use std::rc::Rc;

/// A name, and whether it takes a text.
pub type Scanner = (&'static str, fn(&[u8]) -> bool);

pub const ALL: [Scanner; 3] = [
    // The proved scan.
    ("proved", |text| probe::scan(text) == Scan::Whole),
    // The second implementation's, which also notes where values stand.
    ("second", |text| second::scan(text) == Scan::Whole),
    // It keeps nothing; behind a check of UTF-8, since it does not look at the
    // bytes of a string that it ignores.
    ("serde_json", |text| {
        std::str::from_utf8(text).is_ok() && serde_json::from_slice::<IgnoredAny>(text).is_ok()
    }),
];

pub fn groups() -> Vec<Group> {
    samples().into_iter().map(group).collect()
}

/// One kernel by its names.
pub fn find(texts: &str, kernel: &str) -> Option<Repeat> {
    let group = groups().into_iter().find(|group| group.texts == texts)?;
    let mut kernels = group.kernels.into_iter();
    Some(kernels.find(|known| known.name == kernel)?.repeat)
}

fn group(sample: Sample) -> Group {
    let (calls, bytes) = (sample.texts.len(), sample.bytes());
    let texts = Rc::new(sample.texts);
    Group {
        operation: "scan",
        texts: sample.name,
        calls,
        bytes: bytes as f64 / calls as f64,
        kernels: ALL
            .map(|(name, _)| Kernel {
                name,
                repeat: repeat(name, Rc::clone(&texts)),
            })
            .into(),
    }
}

/// A kernel that says no sooner than the others would seem fast, so none may.
/// Which one it is, is known where its loop is compiled.
fn repeat(name: &str, texts: Rc<Vec<Vec<u8>>>) -> Repeat {
    for (known, takes) in ALL {
        assert!(texts.iter().all(|text| takes(text)), "{known} refuses one");
    }
    match name {
        "proved" => Box::new(move |times| each(&texts, times, ALL[0].1)),
        "second" => Box::new(move |times| each(&texts, times, ALL[1].1)),
        _ => Box::new(move |times| each(&texts, times, ALL[2].1)),
    }
}

/// The compiler can neither guess a text nor drop an answer.
#[inline(always)]
fn each(texts: &[Vec<u8>], times: usize, takes: impl Fn(&[u8]) -> bool) {
    for _ in 0..times {
        for text in texts {
            black_box(takes(black_box(text)));
        }
    }
}
