//! Policies and records under every single edit of their parts and bytes.

use super::generated::Tally;
use super::{allowed, decides, denied, IMPLICIT};
use crate::agree;
use second::Decision;
use trials::changes::every_change;

const POLICY: &str = r#"{"Version":"2012-10-17","Statement":[{"Sid":"S1","Effect":"Deny","Action":["s3:Put*","s3:?elete"],"Resource":"arn:aws:s3:::gate/*"},{"Effect":"Allow","Action":["s3:Get*","sqs:*"],"Resource":["arn:aws:s3:::gate/*/é?","arn:aws:s3:::n${*}*"],"Condition":{"StringEquals":{"aws:Tag/x":["é","*"]},"StringLike":{"k":"n*"},"NumericLessThanEquals":{"n":[7,"10"]}}},{"Effect":"Allow","Action":"*","Resource":"arn:aws:s3:::open/*"}]}"#;

const RECORDS: [(&str, Decision); 4] = [
    (
        r#"{"ActionNames":["s3:GetObject"],"ResourceArns":["arn:aws:s3:::gate/north/é1"],"ContextEntries":[{"ContextKeyName":"aws:tag/X","ContextKeyType":"string","ContextKeyValues":["*"]},{"ContextKeyName":"K","ContextKeyType":"string","ContextKeyValues":["north"]},{"ContextKeyName":"n","ContextKeyType":"numeric","ContextKeyValues":["10"]}]}"#,
        allowed(2),
    ),
    (
        r#"{"ActionNames":["s3:delete"],"ResourceArns":["arn:aws:s3:::gate/"],"ContextEntries":[]}"#,
        denied(1),
    ),
    (
        r#"{"ActionNames":["a:b"],"ResourceArns":["arn:aws:s3:::open/é"]}"#,
        allowed(3),
    ),
    (
        r#"{"ContextEntries":[{"ContextKeyType":"string","ContextKeyName":"n","ContextKeyValues":["7"]},{"ContextKeyValues":["é"],"ContextKeyType":"string","ContextKeyName":"aws:Tag/x"}],"ResourceArns":["arn:aws:s3:::n*"],"ActionNames":["sqs:Send"]}"#,
        IMPLICIT,
    ),
];

#[test]
fn without_an_edit() {
    for (record, expected) in RECORDS {
        decides(POLICY, record, expected);
    }
}

#[test]
fn edited_policies_agree() {
    let mut tally = Tally::default();
    for policy in every_change(POLICY) {
        for (record, _) in RECORDS {
            tally.count(agree::decide(&policy, record.as_bytes()));
        }
    }
    let wanted = [
        ("Allowed", 500),
        ("ExplicitlyDenied", 500),
        ("ImplicitlyDenied", 500),
        ("refused 3", 2_000),
        ("refused 4", 2_000),
    ];
    tally.at_least("edited policies", &wanted);
}

#[test]
fn edited_records_agree() {
    let mut tally = Tally::default();
    for (record, _) in RECORDS {
        for changed in every_change(record) {
            tally.count(agree::decide(POLICY.as_bytes(), &changed));
        }
    }
    let wanted = [
        ("Allowed", 300),
        ("ExplicitlyDenied", 40),
        ("ImplicitlyDenied", 500),
        ("refused 8", 2_000),
        ("refused 9", 1_000),
    ];
    tally.at_least("edited records", &wanted);
}
