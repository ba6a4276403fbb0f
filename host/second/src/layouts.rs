//! What a text is as a policy or as a record, apart from every operation: plain
//! nested lists, so that two readers are compared by `==`.

use crate::operations::{with_policy, with_record};
use crate::{policy, record_layout};
use std::ops::Range;

pub use crate::forms::{ANY_ONE, ANY_RUN};
pub use crate::policy::{Effect, Operator};
pub use crate::refusal::Refusal;

/// Characters by their numbers and, where entries have them, the wildcards
/// `ANY_RUN` and `ANY_ONE`.
pub type Text = Vec<u32>;

#[derive(Debug, Clone, PartialEq, Eq)]
pub enum Value {
    Text(Text),
    Number(u64),
}

#[derive(Debug, Clone, PartialEq, Eq)]
pub struct Row {
    pub operator: Operator,
    pub key: Text,
    pub entries: Vec<Value>,
}

#[derive(Debug, Clone, PartialEq, Eq)]
pub struct Statement {
    pub sid: Option<Text>,
    pub effect: Effect,
    pub actions: Vec<Text>,
    pub resources: Vec<Text>,
    pub rows: Vec<Row>,
}

/// Everything is in reading order.
#[derive(Debug, Clone, PartialEq, Eq)]
pub struct Policy {
    pub statements: Vec<Statement>,
}

#[derive(Debug, Clone, PartialEq, Eq)]
pub struct ContextEntry {
    pub key: Text,
    pub value: Value,
}

/// An absent resource is the text `*`; context entries are in the order of the
/// text.
#[derive(Debug, Clone, PartialEq, Eq)]
pub struct Record {
    pub action: Text,
    pub resource: Text,
    pub context: Vec<ContextEntry>,
}

/// Refused by 2 to 5, or the policy.
pub fn read_policy(text: &[u8]) -> Result<Policy, Refusal> {
    with_policy(text, |kept| Policy {
        statements: kept.statements.iter().map(|s| statement(kept, s)).collect(),
    })
}

/// Refused by 7 to 9, or the record.
pub fn read_record(text: &[u8]) -> Result<Record, Refusal> {
    with_record(text, |kept| Record {
        action: kept.action().to_vec(),
        resource: kept.resource().to_vec(),
        context: kept.context().map(context_entry).collect(),
    })
}

fn statement(kept: &policy::Policy, statement: &policy::Statement) -> Statement {
    let rows = kept.rows_of(statement).iter();
    Statement {
        sid: kept.sid(statement).map(<[u32]>::to_vec),
        effect: statement.effect,
        actions: texts(kept, &statement.actions),
        resources: texts(kept, &statement.resources),
        rows: rows.map(|r| row(kept, r)).collect(),
    }
}

fn texts(kept: &policy::Policy, entries: &Range<usize>) -> Vec<Text> {
    let entries = kept.entries[entries.clone()].iter();
    entries.map(|entry| kept.symbols(entry).to_vec()).collect()
}

fn row(kept: &policy::Policy, row: &policy::ConditionRow) -> Row {
    let entries = kept.entries[row.entries.clone()].iter();
    Row {
        operator: row.operator,
        key: kept.key(row).to_vec(),
        entries: entries.map(|entry| value(kept, entry)).collect(),
    }
}

fn value(kept: &policy::Policy, entry: &policy::Entry) -> Value {
    match entry.shape {
        policy::Shape::UpTo(number) => Value::Number(number),
        _ => Value::Text(kept.symbols(entry).to_vec()),
    }
}

fn context_entry((key, value): (&[u32], record_layout::Value)) -> ContextEntry {
    ContextEntry {
        key: key.to_vec(),
        value: match value {
            record_layout::Value::Text(text) => Value::Text(text.to_vec()),
            record_layout::Value::Number(number) => Value::Number(number),
        },
    }
}
