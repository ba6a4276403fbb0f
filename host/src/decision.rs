//! What a policy says of a record.

use core::fmt;

/// Whether a request is let through.
#[derive(Debug, Clone, Copy, PartialEq, Eq, Hash)]
pub enum Outcome {
    /// An Allow statement matches and no Deny statement does.
    Allowed,
    /// A Deny statement matches.
    ExplicitlyDenied,
    /// No statement matches.
    ImplicitlyDenied,
}

/// In words, for logs.
///
/// ```
/// assert_eq!(muckposy::Outcome::ExplicitlyDenied.to_string(), "explicitly denied");
/// ```
impl fmt::Display for Outcome {
    fn fmt(&self, to: &mut fmt::Formatter<'_>) -> fmt::Result {
        to.pad(match self {
            Outcome::Allowed => "allowed",
            Outcome::ExplicitlyDenied => "explicitly denied",
            Outcome::ImplicitlyDenied => "implicitly denied",
        })
    }
}

/// The outcome for a record, and the statement that it comes from.
#[derive(Debug, Clone, Copy, PartialEq, Eq, Hash)]
pub struct Decision {
    /// Whether the request is let through.
    pub outcome: Outcome,
    /// The first statement that decides, counted from 1, or 0 where none does.
    pub statement: u32,
}

/// In words, for logs.
///
/// ```
/// use muckposy::{Decision, Outcome};
///
/// let decision = Decision { outcome: Outcome::Allowed, statement: 2 };
/// assert_eq!(decision.to_string(), "allowed by statement 2");
/// ```
impl fmt::Display for Decision {
    fn fmt(&self, to: &mut fmt::Formatter<'_>) -> fmt::Result {
        match self.statement {
            0 => self.outcome.fmt(to),
            statement => write!(to, "{} by statement {statement}", self.outcome),
        }
    }
}
