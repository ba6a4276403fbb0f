//! Texts with every feature under every single edit of their parts and bytes.

use crate::agree;
use trials::changes::{every_change, POLICIES};
use trials::tally::Tally;

const RECORDS: [&str; 3] = [
    r#"{"ActionNames":["s3:GetObject"],"ResourceArns":["arn:aws:s3:::gate/north/é1"],"ContextEntries":[{"ContextKeyName":"aws:Tag/x","ContextKeyType":"string","ContextKeyValues":["*"]},{"ContextKeyName":"k","ContextKeyType":"numeric","ContextKeyValues":["10"]}]}"#,
    r#"{"ContextEntries":[{"ContextKeyValues":["9007199254740991"],"ContextKeyType":"numeric","ContextKeyName":"K"}],"ActionNames":["a:b"]}"#,
    r#"{"ActionNames":["a-b:c_d.e"],"ResourceArns":["*"]}"#,
];

#[test]
fn edited_policies_agree() {
    let mut tally = Tally::default();
    let changed = POLICIES.into_iter().flat_map(every_change);
    changed.for_each(|text| tally.count(agree::policy(&text)));
    tally.at_least("policies", &[(0, 500), (3, 2_000), (4, 2_000)]);
}

#[test]
fn edited_records_agree() {
    let mut tally = Tally::default();
    let changed = RECORDS.into_iter().flat_map(every_change);
    changed.for_each(|text| tally.count(agree::record(&text)));
    tally.at_least("records", &[(0, 500), (8, 2_000), (9, 1_000)]);
}
