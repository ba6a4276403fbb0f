//! Which rows a feed writes, and what they come to hold.

use crate::encoding::Content;
use crate::subject::{Subject, ROOM};
use crate::texts::*;
use crate::{contents, ensure, same, Check};
use second::Outcome;

/// One record under a policy with entries of every kind: each entry that
/// matches is charged, and no other row is touched.
pub fn only_charged(subject: &Subject) -> Check {
    let policy = contents::every_kind();
    let record = format!(
        r#"{{"ActionNames":["s3:GetObject"],"ResourceArns":["arn:aws:s3:::g/abc"],"ContextEntries":[{},{},{}]}}"#,
        context_entry("E", "string", "*"),
        context_entry("L", "string", "xy"),
        context_entry("N", "numeric", "4294967297"),
    );
    let action = || Content::single("s3:GetObject");
    let resource = || Content::single("arn:aws:s3:::g/abc");
    let expected = [
        action(),
        action(),
        Content::Itself,
        action(),
        resource(),
        resource(),
        resource(),
        Content::Itself,
        Content::single("xy"),
        Content::single("xy"),
        Content::Empty,
        Content::Empty,
        Content::Number((1 << 32) + 1),
    ];
    holds(subject, &policy, &[record], 0, &expected)
}

/// Reading order does not follow the text where members stand otherwise, and
/// Deny entries have rows that stay empty.
pub fn in_reading_order(subject: &Subject) -> Check {
    let last = r#"{"Condition":{"StringLike":{"b":"*"},"StringEquals":{"a":"v"}},"Resource":"*","Action":"*","Effect":"Allow"}"#;
    let denied = statement_to("Deny", r#""z:z""#, r#""*""#);
    let policy = statements(&[denied, last.to_owned()]);
    let context = [("a", "v"), ("b", "w")];
    let record = with_context(&context.map(|(key, value)| context_entry(key, "string", value)));
    let expected = [
        Content::single("a:b"),
        // A logged star keeps the entry.
        Content::Itself,
        Content::single("w"),
        Content::Itself,
    ];
    holds(subject, &policy, &[record], 2, &expected)
}

/// Every Allow statement that matches is charged, not the first alone, and one
/// that does not match is not, though some of its entries do.
pub fn every_statement(subject: &Subject) -> Check {
    let any = r#"["*"]"#;
    let policy = statements(&[
        statement(r#"["a:*"]"#, any),
        statement(r#"["b:*"]"#, any),
        statement(any, r#"["arn:::::*"]"#),
    ]);
    let records = [("a:x", "arn:::::1"), ("a:y", "arn:::::2")];
    let records = records.map(|(action, resource)| asking(action, resource));
    let expected = [
        Content::Itself,
        Content::beginning("arn:::::"),
        Content::Empty,
        Content::Empty,
        Content::beginning("a:"),
        Content::Itself,
    ];
    holds(subject, &policy, &records, 0, &expected)
}

/// Whether a room fed with these records, all allowed, holds these contents from
/// a row on, and nothing else.
fn holds(
    subject: &Subject,
    policy: &str,
    records: &[String],
    first: usize,
    expected: &[Content],
) -> Check {
    let mut room = vec![0; ROOM];
    for record in records {
        let (policy, record) = (policy.as_bytes(), record.as_bytes());
        let answer = subject.implementation.feed(policy, record, &mut room);
        let outcome = answer.map(|decision| decision.outcome);
        same(outcome, Ok(Outcome::Allowed), "feed")?;
    }
    let contents = subject.encoding.contents(&room).unwrap_or_default();
    let last = first + expected.len();
    let found = contents.get(first..last).unwrap_or_default();
    same(found, expected, policy)?;
    let others = contents[..first].iter().chain(&contents[last..]);
    let empty = others.clone().all(|content| *content == Content::Empty);
    ensure(empty, || format!("another row is filled under {policy}"))
}
