//! Refusal 6 by hand.

use crate::proved::PROVED;
use trials::contents;

#[test]
fn by_hand() {
    assert_eq!(contents::by_hand(&PROVED), Ok(()));
}

#[test]
fn marks_and_leavings() {
    assert_eq!(contents::marks_and_leavings(&PROVED), Ok(()));
}
