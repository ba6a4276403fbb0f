//! Refusals of every operation, the lowest first, with nothing changed.

use crate::proved::PROVED;
use trials::refusals;

#[test]
fn decide() {
    assert_eq!(refusals::decide(&PROVED), Ok(()));
}

#[test]
fn feed() {
    assert_eq!(refusals::feed(&PROVED), Ok(()));
}

#[test]
fn join() {
    assert_eq!(refusals::join(&PROVED), Ok(()));
}

#[test]
fn finish() {
    assert_eq!(refusals::finish(&PROVED), Ok(()));
}

#[test]
fn restate() {
    assert_eq!(refusals::restate(&PROVED), Ok(()));
}

#[test]
fn fresh() {
    assert_eq!(refusals::fresh(&PROVED), Ok(()));
}

#[test]
fn room_lengths() {
    assert_eq!(refusals::room_lengths(&PROVED), Ok(()));
}

#[test]
fn nothing_without_cause() {
    assert_eq!(refusals::nothing_without_cause(&PROVED), Ok(()));
}
