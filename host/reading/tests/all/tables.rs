//! Tables of texts and what the order says of them, which both readers have to
//! say.

use crate::agree;
use second::Refusal;

/// A refusal's number and its place; 0 at 0 where the text is accepted.
pub type Expected = (u32, usize);

pub const ACCEPTED: Expected = (0, 0);
pub const POLICY_BYTES: Expected = (2, 0);
pub const POLICY_LAYOUT: Expected = (4, 0);
pub const POLICY_LIMIT: Expected = (5, 0);
pub const RECORD_BYTES: Expected = (7, 0);
pub const RECORD_LAYOUT: Expected = (9, 0);

/// Fails where a policy text is not read as expected.
pub fn policies<T: AsRef<[u8]>>(table: impl IntoIterator<Item = (T, Expected)>) {
    check(agree::policy, table);
}

/// Fails where a record is not read as expected.
pub fn records<T: AsRef<[u8]>>(table: impl IntoIterator<Item = (T, Expected)>) {
    check(agree::record, table);
}

/// The rows of a table, each part set in a frame.
pub fn framed<'a, P: Copy + 'a>(
    frame: impl Fn(P) -> String + 'a,
    table: &'a [(P, Expected)],
) -> impl Iterator<Item = (String, Expected)> + 'a {
    table
        .iter()
        .map(move |&(part, expected)| (frame(part), expected))
}

fn check<T, R>(
    read: fn(&[u8]) -> Result<R, Refusal>,
    table: impl IntoIterator<Item = (T, Expected)>,
) where
    T: AsRef<[u8]>,
{
    for (text, expected) in table {
        let text = text.as_ref();
        let found = read(text).map_or_else(|refusal| (refusal.number, refusal.place), |_| ACCEPTED);
        assert_eq!(found, expected, "on {}", text.escape_ascii());
    }
}
