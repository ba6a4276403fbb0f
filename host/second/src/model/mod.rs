//! The right answers for planned policies, by the shortest way to say them.
//!
//! The model remembers every value that was charged and looks for the least
//! candidate only at the end, by listing candidates and comparing them with
//! one another. It shares nothing with the implementation but the sizes, and
//! its speed does not matter.

pub mod candidates;
pub mod json;
pub mod written;

use crate::generate::plan::*;
use crate::limits::RESULT_BYTES;
use crate::{Decision, Outcome};
use candidates::least;
use written::{written_policy, written_statement};

/// A policy with what was charged to each of its entries, in reading order.
pub struct Model<'a> {
    plan: &'a PlannedPolicy,
    charged: Vec<Vec<PlannedValue>>,
}

/// What Finish or Restate should answer.
#[derive(Debug, Clone, PartialEq, Eq)]
pub enum Expected {
    Written(String),
    Refused(u32),
}

impl<'a> Model<'a> {
    pub fn new(plan: &'a PlannedPolicy) -> Model<'a> {
        let lists = plan.lists();
        let entries = lists.map(|list| list.entries.len()).sum();
        Model {
            plan,
            charged: vec![Vec::new(); entries],
        }
    }

    pub fn decide(&self, record: &PlannedRecord) -> Decision {
        let matching = |allow: bool| {
            let mut numbered = (1..).zip(&self.plan.statements);
            let first = numbered.find(|(_, s)| s.allow == allow && statement_matches(s, record));
            first.map(|(number, _)| number)
        };
        let (outcome, statement) = match (matching(false), matching(true)) {
            (Some(deny), _) => (Outcome::ExplicitlyDenied, deny),
            (None, Some(allow)) => (Outcome::Allowed, allow),
            (None, None) => (Outcome::ImplicitlyDenied, 0),
        };
        Decision { outcome, statement }
    }

    pub fn feed(&mut self, record: &PlannedRecord) -> Decision {
        let decision = self.decide(record);
        if decision.outcome != Outcome::Allowed {
            return decision;
        }
        let mut number = 0;
        for statement in &self.plan.statements {
            let open = statement.allow && statement_matches(statement, record);
            for list in statement.lists() {
                let value = value_for(&list, record);
                for entry in list.entries {
                    let value = value.clone().filter(|v| open && matches(entry, v));
                    self.charged[number].extend(value);
                    number += 1;
                }
            }
        }
        decision
    }

    /// The least candidate of each entry, none where nothing was charged.
    pub fn held(&self) -> Vec<Option<PlannedEntry>> {
        let lists = self.plan.lists();
        let entries = lists.flat_map(|l| l.entries.iter().map(move |e| (l.spot, e)));
        let charged = self.charged.iter();
        entries
            .zip(charged)
            .map(|((spot, entry), charged)| least(spot, entry, charged))
            .collect()
    }

    pub fn finish(&self) -> Expected {
        let mut held = self.held().into_iter();
        let mut statements = Vec::new();
        let mut some_allow = false;
        for statement in &self.plan.statements {
            let lists = statement.lists();
            let lists = lists.iter().map(|list| {
                let left = list.entries.iter().zip(held.by_ref());
                left.filter_map(|(own, held)| {
                    if statement.allow {
                        held
                    } else {
                        Some(own.clone())
                    }
                })
                .collect()
            });
            let lists: Vec<Vec<PlannedEntry>> = lists.collect();
            if lists.iter().all(|list| !list.is_empty()) {
                some_allow |= statement.allow;
                statements.push(written_statement(statement, &lists));
            }
        }
        match some_allow {
            true => within_limit(written_policy(&statements)),
            false => Expected::Refused(10),
        }
    }

    pub fn restate(&self) -> Expected {
        let statements = self.plan.statements.iter().map(|statement| {
            let lists = statement.lists();
            let lists: Vec<_> = lists.iter().map(|list| list.entries.to_vec()).collect();
            written_statement(statement, &lists)
        });
        within_limit(written_policy(&statements.collect::<Vec<_>>()))
    }
}

fn within_limit(text: String) -> Expected {
    match text.len() <= RESULT_BYTES {
        true => Expected::Written(text),
        false => Expected::Refused(11),
    }
}

fn statement_matches(statement: &PlannedStatement, record: &PlannedRecord) -> bool {
    statement.lists().iter().all(|list| {
        let value = value_for(list, record);
        value.is_some_and(|value| list.entries.iter().any(|entry| matches(entry, &value)))
    })
}

fn value_for(list: &PlannedList, record: &PlannedRecord) -> Option<PlannedValue> {
    match list.spot {
        Spot::Action => Some(PlannedValue::Text(record.action.clone())),
        Spot::Resource => {
            let resource = record.resource.as_deref().unwrap_or("*");
            Some(PlannedValue::Text(resource.to_owned()))
        }
        Spot::Under(_) => {
            let mut context = record.context.iter();
            let found = context.find(|(key, _)| key.eq_ignore_ascii_case(list.key));
            found.map(|(_, value)| value.clone())
        }
    }
}

/// Values of another type match nothing.
pub fn matches(entry: &PlannedEntry, value: &PlannedValue) -> bool {
    match (entry, value) {
        (PlannedEntry::Number(bound), PlannedValue::Number(number)) => number <= bound,
        (PlannedEntry::Text(pieces), PlannedValue::Text(text)) => {
            let text: Vec<char> = text.chars().collect();
            pieces_match(pieces, &text)
        }
        _ => false,
    }
}

/// Which beginnings of the text the pieces so far match, piece by piece.
pub fn pieces_match(pieces: &[Piece], text: &[char]) -> bool {
    let mut reached = vec![false; text.len() + 1];
    reached[0] = true;
    for piece in pieces {
        let mut next = vec![false; text.len() + 1];
        let mut before = false;
        for end in 0..=text.len() {
            let one_less = end > 0 && reached[end - 1];
            next[end] = match piece {
                Piece::Star => before || reached[end],
                Piece::One => one_less,
                Piece::Plain(wanted) => one_less && text[end - 1] == *wanted,
            };
            before = next[end];
        }
        reached = next;
    }
    reached[text.len()]
}
