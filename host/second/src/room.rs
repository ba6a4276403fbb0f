//! Rooms: which of them a policy can have, charging a record, joining two.

use crate::candidates::{is_candidate, least, least_for, Held};
use crate::decision::{row_value, statement_matches};
use crate::fault::{self, Fault};
use crate::matching::entry_matches;
use crate::policy::{Effect, Policy};
use crate::record_layout::{Record, Value};
use crate::row;
use std::ops::Range;

/// Whether every row of an Allow entry is empty or holds a candidate of its
/// entry, and all other rows are zero.
pub fn fits(policy: &Policy, room: &[u32]) -> bool {
    let rows_fit = policy.statements.iter().all(|statement| {
        let mut entries = policy.entries_of(statement);
        entries.all(|number| row_fits(policy, statement.effect, number, room))
    });
    let spare = &room[row::place(policy.entries.len()).start..];
    rows_fit && row::is_empty(spare)
}

fn row_fits(policy: &Policy, effect: Effect, number: usize, room: &[u32]) -> bool {
    let row = &room[row::place(number)];
    match effect {
        Effect::Deny => row::is_empty(row),
        Effect::Allow => {
            let entry = &policy.entries[number];
            row::is_encoding(row) && is_candidate(policy, entry, row::read(row))
        }
    }
}

/// Charges a record that the policy allows.
pub fn charge(policy: &Policy, record: &Record, room: &mut [u32]) {
    for statement in &policy.statements {
        if statement.effect == Effect::Deny || !statement_matches(policy, statement, record) {
            continue;
        }
        let [action, resource] = [record.action(), record.resource()].map(Value::Text);
        charge_list(policy, &statement.actions, action, room);
        charge_list(policy, &statement.resources, resource, room);
        for condition in policy.rows_of(statement) {
            if let Some(value) = row_value(policy, condition, record) {
                charge_list(policy, &condition.entries, value, room);
            }
        }
    }
}

/// Charges a value to every entry of a list that matches it.
fn charge_list(policy: &Policy, entries: &Range<usize>, value: Value, room: &mut [u32]) {
    for number in entries.clone() {
        let entry = &policy.entries[number];
        if !entry_matches(policy, entry, value) {
            continue;
        }
        cover(policy, number, least_for(entry, value), room);
        if fault::is_on(Fault::FirstEntryOnly) {
            return;
        }
    }
}

/// Takes another room's content into the first, row by row.
pub fn join(policy: &Policy, room: &mut [u32], other: &[u32]) {
    for number in 0..policy.entries.len() {
        cover(policy, number, row::read(&other[row::place(number)]), room);
    }
}

/// Makes an entry's row hold the least candidate that also covers this one.
fn cover(policy: &Policy, number: usize, addition: Held, room: &mut [u32]) {
    let entry = &policy.entries[number];
    let own = &mut room[row::place(number)];
    let least = least(policy, entry, row::read(own), addition);
    row::settle(own, addition, least);
}
