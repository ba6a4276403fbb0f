//! Short ways to write policies, records and answers.

use second::{Decision, Outcome, Refusal};

pub const ROOM: usize = 16_384;
pub const UNTOUCHED: u8 = 0xA5;

/// A policy of these statements, given as JSON.
pub fn policy(statements: &[String]) -> String {
    let statements = statements.join(",");
    format!(r#"{{"Version":"2012-10-17","Statement":[{statements}]}}"#)
}

/// A statement with these values, given as JSON.
pub fn statement(effect: &str, action: &str, resource: &str) -> String {
    format!(r#"{{"Effect":"{effect}","Action":{action},"Resource":{resource}}}"#)
}

/// A policy of one Allow statement with these values, given as JSON.
pub fn allow(action: &str, resource: &str) -> String {
    policy(&[statement("Allow", action, resource)])
}

/// A policy that allows everything under a condition, given as JSON.
pub fn allow_if(condition: &str) -> String {
    let statement = statement("Allow", "\"*\"", "\"*\"");
    let open = statement.strip_suffix('}').unwrap();
    policy(&[format!("{open},\"Condition\":{condition}}}")])
}

/// A record, its texts spelled as in JSON.
pub fn record(action: &str, resource: &str) -> String {
    format!(r#"{{"ActionNames":["{action}"],"ResourceArns":["{resource}"]}}"#)
}

/// A record of a:b on everything with context entries, given as JSON.
pub fn record_with(context: &[String]) -> String {
    let context = context.join(",");
    format!(r#"{{"ActionNames":["a:b"],"ContextEntries":[{context}]}}"#)
}

pub fn context(key: &str, kind: &str, value: &str) -> String {
    format!(
        r#"{{"ContextKeyName":"{key}","ContextKeyType":"{kind}","ContextKeyValues":["{value}"]}}"#
    )
}

pub fn refused(number: u32) -> Refusal {
    Refusal { number, place: 0 }
}

/// The number by which Restate refuses a policy, 0 if it does not; for 3 the
/// place must be told apart by the caller.
pub fn policy_number(text: impl AsRef<[u8]>) -> u32 {
    number_of(second::decide(text.as_ref(), br#"{"ActionNames":["a:b"]}"#))
}

/// The number by which Decide refuses a record under a policy for everything.
pub fn record_number(text: impl AsRef<[u8]>) -> u32 {
    number_of(second::decide(
        allow("\"*\"", "\"*\"").as_bytes(),
        text.as_ref(),
    ))
}

pub fn number_of<T>(answer: Result<T, Refusal>) -> u32 {
    answer.err().map_or(0, |refusal| refusal.number)
}

pub fn decide(policy: &str, record: &str) -> (Outcome, u32) {
    let answer = second::decide(policy.as_bytes(), record.as_bytes());
    let Decision { outcome, statement } = answer.unwrap_or_else(|r| panic!("{r} on {record}"));
    (outcome, statement)
}

pub fn finish(policy: &str, room: &[u32]) -> Result<String, Refusal> {
    let mut output = vec![UNTOUCHED; 6200];
    let length = second::finish(policy.as_bytes(), room, &mut output)?;
    output.truncate(length);
    Ok(String::from_utf8(output).unwrap())
}

pub fn restate(policy: impl AsRef<[u8]>) -> Result<String, Refusal> {
    let mut output = vec![UNTOUCHED; 6200];
    let length = second::restate(policy.as_ref(), &mut output)?;
    output.truncate(length);
    Ok(String::from_utf8(output).unwrap())
}

/// A text followed by spaces up to a length.
pub fn padded(text: &str, length: usize) -> Vec<u8> {
    assert!(text.len() <= length);
    let mut padded = text.as_bytes().to_vec();
    padded.resize(length, b' ');
    padded
}
