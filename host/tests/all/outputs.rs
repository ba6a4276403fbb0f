//! Where results are written, and how long they may be.

use crate::proved::PROVED;
use trials::outputs;

#[test]
fn lengths() {
    assert_eq!(outputs::lengths(&PROVED), Ok(()));
}

#[test]
fn longest() {
    assert_eq!(outputs::longest(&PROVED), Ok(()));
}
