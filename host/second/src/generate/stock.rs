//! Names, characters and small texts that plans are made of.
//!
//! The stocks are small, so that wildcards match often and logged texts share
//! beginnings.

use super::random::Random;
use crate::limits::{ENTRY_CHARACTERS, LARGEST_NUMBER};

pub const VENDORS: [&str; 4] = ["s3", "sqs", "s", "a-b_c.d"];
pub const NAMES: [&str; 7] = [
    "Get",
    "GetObject",
    "GetObjectAcl",
    "Put",
    "g",
    "List-All_v1.2",
    "G",
];
pub const ARNS: [&str; 5] = [
    "arn:aws:s3:::gate/",
    "arn:aws:s3:::gate/north/",
    "arn:aws:s3:::",
    "arn:::::",
    "arn:aws:sqs:eu:12:q",
];
pub const KEYS: [&str; 6] = [
    "aws:Tag/x",
    "s3:prefix",
    "k",
    "K-1_2.3",
    "aws:size",
    "S3:Max-Keys",
];
pub const NAME_CHARACTERS: [char; 8] = ['G', 'e', 't', 'A', '1', '-', '_', '.'];
/// What stars often stand for, so that logged texts share beginnings.
pub const NAME_RUNS: [&str; 4] = ["Object", "ObjectAcl", "Objects", "ObjectTag"];
pub const RUNS: [&str; 7] = ["n", "n1", "n/é1", "n/é2", "n/è1", "n/*", "n/𝄞"];
/// Two that share their first byte in UTF-8, the special ones of policies and
/// of JSON, controls, and some of three and four bytes.
pub const CHARACTERS: [char; 24] = [
    'a',
    'b',
    'c',
    '/',
    ':',
    'é',
    'è',
    '*',
    '?',
    '$',
    '{',
    '}',
    '"',
    '\\',
    ' ',
    '\u{1}',
    '\n',
    '\u{7f}',
    '\u{80}',
    '語',
    '\u{ffff}',
    '\u{10000}',
    '𝄞',
    '\u{10ffff}',
];

pub fn short_text(random: &mut Random) -> String {
    let length = random.below(5);
    (0..length).map(|_| *random.pick(&CHARACTERS)).collect()
}

pub fn any_text(random: &mut Random) -> String {
    let mut text = short_text(random);
    if random.chance(1, 60) {
        let length = random.between(ENTRY_CHARACTERS - 2, ENTRY_CHARACTERS);
        text.extend(std::iter::repeat_n('è', length - text.chars().count()));
    }
    text
}

pub fn number(random: &mut Random) -> u64 {
    match random.below(8) {
        0 => 0,
        1 => LARGEST_NUMBER - random.below(2) as u64,
        2 => (1 << 32) - 2 + random.below(4) as u64,
        _ => random.below(20) as u64,
    }
}

pub fn any_case(key: &str, random: &mut Random) -> String {
    match random.below(3) {
        0 => key.to_ascii_lowercase(),
        1 => key.to_ascii_uppercase(),
        _ => key.to_owned(),
    }
}
