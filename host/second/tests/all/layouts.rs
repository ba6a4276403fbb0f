//! What was read, told as nested lists.

use crate::common::refused;
use second::layouts::*;

fn text(characters: &str) -> Text {
    characters.chars().map(u32::from).collect()
}

#[test]
fn a_policy_in_reading_order() {
    let policy = r#"{"Statement":[
        {"Condition":{"NumericLessThanEquals":{"n":["9007199254740991",0]},"StringEquals":{"K":"*"}},
         "Resource":["arn:::::${*}*","*"],"Action":"s3:G?t","Effect":"Deny","Sid":"\u0053"},
        {"Effect":"Allow","Action":["*"],"Resource":"*"}],"Version":"2012-10-17"}"#;
    let starred = [text("arn:::::*"), vec![ANY_RUN]].concat();
    let one = [text("s3:G"), vec![ANY_ONE], text("t")].concat();
    let first = Statement {
        sid: Some(text("S")),
        effect: Effect::Deny,
        actions: vec![one],
        resources: vec![starred, vec![ANY_RUN]],
        rows: vec![
            Row {
                operator: Operator::NumericLessThanEquals,
                key: text("n"),
                entries: vec![Value::Number(9_007_199_254_740_991), Value::Number(0)],
            },
            Row {
                operator: Operator::StringEquals,
                key: text("K"),
                entries: vec![Value::Text(text("*"))],
            },
        ],
    };
    let second = Statement {
        sid: None,
        effect: Effect::Allow,
        actions: vec![vec![ANY_RUN]],
        resources: vec![vec![ANY_RUN]],
        rows: Vec::new(),
    };
    let statements = vec![first, second];
    assert_eq!(read_policy(policy.as_bytes()), Ok(Policy { statements }));
}

#[test]
fn a_record_in_the_order_of_its_text() {
    let record = r#"{"ContextEntries":[
        {"ContextKeyValues":["12"],"ContextKeyType":"string","ContextKeyName":"K"},
        {"ContextKeyName":"a","ContextKeyType":"numeric","ContextKeyValues":["12"]}],
        "ActionNames":["s3:Get"]}"#;
    let entry = |key, value| ContextEntry {
        key: text(key),
        value,
    };
    let context = vec![
        entry("K", Value::Text(text("12"))),
        entry("a", Value::Number(12)),
    ];
    let expected = Record {
        action: text("s3:Get"),
        resource: text("*"),
        context,
    };
    assert_eq!(read_record(record.as_bytes()), Ok(expected));
}

#[test]
fn refusals() {
    assert_eq!(read_policy(&[b' '; 16_385]), Err(refused(2)));
    assert_eq!(
        read_policy(b"{"),
        Err(Refusal {
            number: 3,
            place: 1
        })
    );
    assert_eq!(read_policy(b"{}"), Err(refused(4)));
    assert_eq!(read_record(&[b' '; 8_193]), Err(refused(7)));
    assert_eq!(
        read_record(b"[}"),
        Err(Refusal {
            number: 8,
            place: 1
        })
    );
    assert_eq!(read_record(b"[]"), Err(refused(9)));
}
