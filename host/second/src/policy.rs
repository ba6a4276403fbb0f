//! A policy as it is kept: flat lists in reading order over one store of
//! characters.

use crate::forms;
use crate::limits::{CONDITION_ROWS, ENTRIES, ENTRY_CHARACTERS, STATEMENTS};
use crate::strings::Span;
use std::ops::Range;

#[derive(Debug, Clone, Copy, PartialEq, Eq)]
pub enum Effect {
    Allow,
    Deny,
}

#[derive(Debug, Clone, Copy, PartialEq, Eq)]
pub enum Operator {
    StringEquals,
    StringLike,
    NumericLessThanEquals,
}

/// The list in which an entry stands, which decides how it is read, what is
/// legal there and how it is written.
#[derive(Debug, Clone, Copy, PartialEq, Eq)]
pub enum Field {
    Action,
    Resource,
    Row(Operator),
}

/// What an entry can match, as far as its candidates depend on it.
#[derive(Debug, Clone, Copy, PartialEq, Eq)]
pub enum Shape {
    /// Exactly one text.
    Plain,
    /// Every text with a certain beginning: one wildcard, a final `*`.
    FinalStar,
    OtherWildcards,
    /// Every number up to this one.
    UpTo(u64),
}

#[derive(Debug, Clone, Copy)]
pub struct Entry {
    pub field: Field,
    pub shape: Shape,
    pub text: Span,
}

#[derive(Debug, Clone)]
pub struct ConditionRow {
    pub operator: Operator,
    pub key: Span,
    /// Numbers of its entries in reading order.
    pub entries: Range<usize>,
}

#[derive(Debug, Clone)]
pub struct Statement {
    pub effect: Effect,
    pub sid: Option<Span>,
    pub actions: Range<usize>,
    pub resources: Range<usize>,
    /// Numbers of its condition rows among the policy's.
    pub rows: Range<usize>,
}

/// A policy in reading order; its stores are reused from text to text.
#[derive(Debug, Default)]
pub struct Policy {
    pub characters: Vec<u32>,
    pub entries: Vec<Entry>,
    pub rows: Vec<ConditionRow>,
    pub statements: Vec<Statement>,
}

impl Policy {
    /// The symbols of an entry: characters and wildcards.
    pub fn symbols(&self, entry: &Entry) -> &[u32] {
        entry.text.of(&self.characters)
    }

    pub fn key(&self, row: &ConditionRow) -> &[u32] {
        row.key.of(&self.characters)
    }

    pub fn sid(&self, statement: &Statement) -> Option<&[u32]> {
        statement.sid.map(|span| span.of(&self.characters))
    }

    /// The condition rows of a statement.
    pub fn rows_of(&self, statement: &Statement) -> &[ConditionRow] {
        &self.rows[statement.rows.clone()]
    }

    /// The numbers of all entries of a statement, which follow one another.
    pub fn entries_of(&self, statement: &Statement) -> Range<usize> {
        let rows = self.rows_of(statement);
        let end = rows
            .last()
            .map_or(statement.resources.end, |row| row.entries.end);
        statement.actions.start..end
    }

    /// Forgets everything but the room it took.
    pub fn clear(&mut self) {
        self.characters.clear();
        self.entries.clear();
        self.rows.clear();
        self.statements.clear();
    }

    pub fn is_over_a_limit(&self) -> bool {
        let long_entry = |e: &Entry| self.symbols(e).len() > ENTRY_CHARACTERS;
        let long_key = |r: &ConditionRow| forms::key_is_too_long(self.key(r));
        self.statements.len() > STATEMENTS
            || self.entries.len() > ENTRIES
            || self
                .statements
                .iter()
                .any(|s| s.rows.len() > CONDITION_ROWS)
            || self.entries.iter().any(long_entry)
            || self.rows.iter().any(long_key)
    }
}
