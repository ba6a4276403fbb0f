//! Texts at their limits, and beginnings counted in characters.

use crate::proved::PROVED;
use trials::limits;

#[test]
fn bytes() {
    assert_eq!(limits::bytes(&PROVED), Ok(()));
}

#[test]
fn characters() {
    assert_eq!(limits::characters(&PROVED), Ok(()));
}

#[test]
fn longest_beginning() {
    assert_eq!(limits::longest_beginning(&PROVED), Ok(()));
}

#[test]
fn longest_entry() {
    assert_eq!(limits::longest_entry(&PROVED), Ok(()));
}

#[test]
fn shared_bytes() {
    assert_eq!(limits::shared_bytes(&PROVED), Ok(()));
}
