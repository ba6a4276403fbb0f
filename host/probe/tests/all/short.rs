//! Every short text.

use crate::{compare, compare_each};

#[test]
fn every_text_of_two_bytes_agrees() {
    compare(&[]);
    for first in 0..=u8::MAX {
        compare(&[first]);
        for second in 0..=u8::MAX {
            compare(&[first, second]);
        }
    }
}

#[test]
fn every_text_of_six_marks_agrees() {
    for length in 0..=6 {
        compare_each(b"", length, b"[]{}\"\\,:-01.e ", b"");
    }
}
