//! Short ways to write policies and records, their parts given as JSON.

/// A statement that allows everything.
pub const ALLOW: &str = r#"{"Effect":"Allow","Action":"*","Resource":"*"}"#;

/// Numbers about the halves that a held number is parted in, and the ends of
/// the range.
pub const NUMBERS: [u64; 7] = [
    0,
    7,
    10,
    (1 << 32) - 1,
    1 << 32,
    (1 << 32) + 1,
    (1 << 53) - 1,
];

/// A policy whose Statement is this value.
pub fn policy(statement: &str) -> String {
    format!(r#"{{"Version":"2012-10-17","Statement":{statement}}}"#)
}

/// A policy of these statements.
pub fn statements(all: &[String]) -> String {
    policy(&format!("[{}]", all.join(",")))
}

/// A statement that allows what these lists say.
pub fn statement(action: &str, resource: &str) -> String {
    statement_to("Allow", action, resource)
}

/// A statement with this effect and these lists.
pub fn statement_to(effect: &str, action: &str, resource: &str) -> String {
    format!(r#"{{"Effect":"{effect}","Action":{action},"Resource":{resource}}}"#)
}

pub fn with_action(action: &str) -> String {
    policy(&statement(action, r#""*""#))
}

pub fn with_resource(resource: &str) -> String {
    policy(&statement(r#""*""#, resource))
}

/// A statement that allows everything under this condition.
pub fn conditional(condition: &str) -> String {
    format!(r#"{{"Effect":"Allow","Action":"*","Resource":"*","Condition":{condition}}}"#)
}

pub fn with_condition(condition: &str) -> String {
    policy(&conditional(condition))
}

/// A policy with one condition row, its operator and key without quotes.
pub fn with_row(operator: &str, key: &str, values: &str) -> String {
    with_condition(&format!(r#"{{"{operator}":{{"{key}":{values}}}}}"#))
}

/// A record with these members besides its action.
pub fn record(members: &str) -> String {
    format!(r#"{{"ActionNames":["a:b"]{members}}}"#)
}

/// A record that asks for an action on a resource, both without quotes.
pub fn asking(action: &str, resource: &str) -> String {
    format!(r#"{{"ActionNames":["{action}"],"ResourceArns":["{resource}"]}}"#)
}

/// A record with this list of context entries.
pub fn with_context(entries: &[String]) -> String {
    record(&format!(r#","ContextEntries":[{}]"#, entries.join(",")))
}

/// A context entry, its parts without quotes.
pub fn context_entry(key: &str, kind: &str, value: &str) -> String {
    format!(
        r#"{{"ContextKeyName":"{key}","ContextKeyType":"{kind}","ContextKeyValues":["{value}"]}}"#
    )
}

/// Between quotes.
pub fn quoted(raw: &str) -> String {
    format!("\"{raw}\"")
}

/// Characters as they stand between the quotes of a JSON string.
pub fn spelled(text: &str) -> String {
    let character = |character: char| match character {
        '"' | '\\' => format!("\\{character}"),
        '\0'..='\u{1f}' => format!("\\u{:04x}", character as u32),
        _ => character.to_string(),
    };
    text.chars().map(character).collect()
}

/// A list of so many of the same.
pub fn list_of(item: &str, count: usize) -> String {
    format!("[{}]", vec![item; count].join(","))
}

/// A text with spaces behind it, up to this length.
pub fn padded(text: &str, length: usize) -> String {
    assert!(text.len() <= length);
    format!("{text}{}", " ".repeat(length - text.len()))
}
