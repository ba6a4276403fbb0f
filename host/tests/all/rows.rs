//! Which rows a feed writes.

use crate::proved::PROVED;
use trials::rows;

#[test]
fn only_charged() {
    assert_eq!(rows::only_charged(&PROVED), Ok(()));
}

#[test]
fn in_reading_order() {
    assert_eq!(rows::in_reading_order(&PROVED), Ok(()));
}

#[test]
fn every_statement() {
    assert_eq!(rows::every_statement(&PROVED), Ok(()));
}
