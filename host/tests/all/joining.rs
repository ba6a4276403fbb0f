//! Joins of single rows, and lists that are half empty.

use crate::proved::PROVED;
use trials::joining;

#[test]
fn by_hand() {
    assert_eq!(joining::by_hand(&PROVED), Ok(()));
}

#[test]
fn half_empty_lists() {
    assert_eq!(joining::half_empty_lists(&PROVED), Ok(()));
}
