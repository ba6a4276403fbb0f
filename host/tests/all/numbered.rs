//! T1 to T12, and which entries a record is charged to.

use crate::proved::PROVED;
use trials::numbered;

#[test]
fn trials_hold() {
    assert_eq!(numbered::trials_hold(&PROVED), Ok(()));
}

#[test]
fn every_entry_is_charged() {
    assert_eq!(numbered::every_entry_is_charged(&PROVED), Ok(()));
}

#[test]
fn denied_records_charge_nothing() {
    assert_eq!(numbered::denied_records_charge_nothing(&PROVED), Ok(()));
}

#[test]
fn a_held_star_is_no_wildcard() {
    assert_eq!(numbered::a_held_star_is_no_wildcard(&PROVED), Ok(()));
}
