//! The decision, clause by clause, and on generated cases.

mod corpus;
mod edited;
mod entries;
mod generated;
mod globs;
mod limits;
mod operators;
mod patterns;
mod rows;
mod statements;

use crate::agree;
use crate::texts::policy;
use second::{Decision, Outcome};

const IMPLICIT: Decision = Decision {
    outcome: Outcome::ImplicitlyDenied,
    statement: 0,
};

const fn allowed(statement: u32) -> Decision {
    let outcome = Outcome::Allowed;
    Decision { outcome, statement }
}

const fn denied(statement: u32) -> Decision {
    let outcome = Outcome::ExplicitlyDenied;
    Decision { outcome, statement }
}

/// Fails where a record is not decided as expected.
fn decides(policy: &str, record: &str, expected: Decision) {
    let found = agree::decide(policy.as_bytes(), record.as_bytes());
    assert_eq!(found, Ok(expected), "on {policy} and {record}");
}

/// Fails unless a statement with these members matches a record as expected:
/// then it allows as an Allow and denies as a Deny, and else does neither.
fn matches(members: &str, record: &str, expected: bool) {
    let effects = [("Allow", allowed(1)), ("Deny", denied(1))];
    for (effect, decision) in effects {
        let policy = policy(&format!(r#"{{"Effect":"{effect}",{members}}}"#));
        let expected = if expected { decision } else { IMPLICIT };
        decides(&policy, record, expected);
    }
}

/// Every text of an alphabet up to a length.
fn every(alphabet: &str, longest: usize) -> Vec<String> {
    let mut texts = vec![String::new()];
    let mut from = 0;
    for _ in 0..longest {
        let last = texts.split_off(from);
        let longer: Vec<_> = last
            .iter()
            .flat_map(|text| alphabet.chars().map(move |next| format!("{text}{next}")))
            .collect();
        texts.extend(last);
        from = texts.len();
        texts.extend(longer);
    }
    texts
}
