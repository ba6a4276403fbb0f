//! What a policy says of a record.

use crate::fault::{self, Fault};
use crate::matching::entry_matches;
use crate::policy::{ConditionRow, Effect, Policy, Statement};
use crate::record_layout::{Record, Value};
use std::ops::Range;

#[derive(Debug, Clone, Copy, PartialEq, Eq)]
pub enum Outcome {
    Allowed,
    ExplicitlyDenied,
    ImplicitlyDenied,
}

/// The outcome and the first statement that decides, counted from 1; 0 where
/// none does.
#[derive(Debug, Clone, Copy, PartialEq, Eq)]
pub struct Decision {
    pub outcome: Outcome,
    pub statement: u32,
}

/// Denies anywhere win, so the walk can only stop early at one.
pub fn decide(policy: &Policy, record: &Record) -> Decision {
    let mut first_allow = None;
    for (number, statement) in (1..).zip(&policy.statements) {
        let open = first_allow.is_none() || statement.effect == Effect::Deny;
        if !open || !statement_matches(policy, statement, record) {
            continue;
        }
        if statement.effect == Effect::Deny {
            return Decision {
                outcome: Outcome::ExplicitlyDenied,
                statement: number,
            };
        }
        first_allow = Some(number);
    }
    match first_allow {
        Some(statement) => Decision {
            outcome: Outcome::Allowed,
            statement,
        },
        None => Decision {
            outcome: Outcome::ImplicitlyDenied,
            statement: 0,
        },
    }
}

/// Some action, some resource and every condition row.
pub fn statement_matches(policy: &Policy, statement: &Statement, record: &Record) -> bool {
    let [action, resource] = [record.action(), record.resource()].map(Value::Text);
    some_entry_matches(policy, &statement.actions, action)
        && some_entry_matches(policy, &statement.resources, resource)
        && policy
            .rows_of(statement)
            .iter()
            .all(|row| row_holds(policy, row, record))
}

fn row_holds(policy: &Policy, row: &ConditionRow, record: &Record) -> bool {
    match row_value(policy, row, record) {
        Some(value) => some_entry_matches(policy, &row.entries, value),
        None => fault::is_on(Fault::MissingKeyHolds),
    }
}

/// The record's value under a row's key. One of another type than the row's
/// operator takes is matched by none of its entries.
pub fn row_value<'r>(policy: &Policy, row: &ConditionRow, record: &'r Record) -> Option<Value<'r>> {
    record.value(policy.key(row))
}

fn some_entry_matches(policy: &Policy, entries: &Range<usize>, value: Value) -> bool {
    let mut entries = policy.entries[entries.clone()].iter();
    entries.any(|entry| entry_matches(policy, entry, value))
}
