//! Texts under many changes: every single edit of their parts and bytes, and
//! what a seed makes of them.

use second::generate::edits::{edit, every_edit};
use second::generate::random::Random;
use second::generate::share::spread;

/// Policies with every feature.
pub const POLICIES: [&str; 3] = [
    r#"{"Version":"2012-10-17","Statement":[{"Sid":"S1","Effect":"Allow","Action":["s3:Get*","*"],"Resource":"arn:aws:s3:::gate/${*}/*","Condition":{"StringEquals":{"aws:Tag/x":["é",""]},"NumericLessThanEquals":{"k":[7,"10"]}}},{"Effect":"Deny","Action":"s3:P?t","Resource":["*"]}]}"#,
    r#"{"Statement":{"Resource":"*","Condition":{"StringLike":{"k":"*","l":["?","${$}"]},"StringEquals":{"K":"v"}},"Action":"sqs:*","Effect":"Deny"},"Version":"2012-10-17"}"#,
    r#"{"Version":"2012-10-17","Statement":[{"Effect":"Allow","Action":"*","Resource":"*","Sid":"a"},{"Effect":"Deny","Action":["a:b"],"Resource":["arn:::::","*"],"Sid":"b"},{"Effect":"Allow","Action":"*","Resource":"*"}]}"#,
];

/// Bytes that turn tokens into others.
const OTHERS: &[u8] = b"\"\\[]{},:0*?$:kK \0\xC3";

/// A text under every single edit of its parts and every other byte, or under
/// the share of them that is run.
pub fn every_change(text: &str) -> impl Iterator<Item = Vec<u8>> + '_ {
    let text = text.as_bytes();
    spread(every_edit(text).into_iter().chain(every_byte(text)))
}

/// A text with each byte replaced by each of the others.
fn every_byte(text: &[u8]) -> impl Iterator<Item = Vec<u8>> + '_ {
    let places = 0..text.len();
    places.flat_map(move |place| {
        OTHERS.iter().map(move |&other| {
            let mut changed = text.to_vec();
            changed[place] = other;
            changed
        })
    })
}

/// A text; edited once or twice, with parts of another; and damaged.
pub fn changes(
    text: &[u8],
    other: &[u8],
    damage: fn(&[u8], &mut Random) -> Vec<u8>,
    random: &mut Random,
) -> [Vec<u8>; 3] {
    let mut edited = edit(text, other, random);
    if random.chance(1, 3) {
        edited = edit(&edited, other, random);
    }
    [text.to_vec(), edited, damage(text, random)]
}
