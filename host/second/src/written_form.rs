//! The written form of a policy, whole or refined.

use crate::candidates::Held;
use crate::fault::{self, Fault};
use crate::forms::{ANY_ONE, ANY_RUN};
use crate::policy::{ConditionRow, Effect, Entry, Field, Operator, Policy, Shape, Statement};
use crate::row;
use crate::strings::{write_character, write_string};
use std::io::Write;
use std::ops::Range;

/// Appends the policy as it stands.
pub fn restate(policy: &Policy, output: &mut Vec<u8>) {
    let room = None;
    Writer {
        policy,
        room,
        output,
    }
    .document();
}

/// Appends the policy refined by a room that fits it, and answers whether any
/// Allow statement was written.
pub fn finish(policy: &Policy, room: &[u32], output: &mut Vec<u8>) -> bool {
    let room = Some(room);
    Writer {
        policy,
        room,
        output,
    }
    .document()
}

struct Writer<'a> {
    policy: &'a Policy,
    /// Absent where the policy is written whole.
    room: Option<&'a [u32]>,
    output: &'a mut Vec<u8>,
}

impl<'a> Writer<'a> {
    fn document(&mut self) -> bool {
        let policy = self.policy;
        let mut some_allow = false;
        self.put("{\"Version\":\"2012-10-17\",\"Statement\":[");
        for statement in &policy.statements {
            if self.is_written(statement) {
                some_allow |= statement.effect == Effect::Allow;
                self.statement(statement);
            }
        }
        self.close("]}");
        some_allow
    }

    /// An Allow statement that lost all entries of a list would match nothing.
    fn is_written(&self, statement: &Statement) -> bool {
        let is_left = |list: &Range<usize>| {
            let mut entries = list.clone();
            entries.any(|number| self.held(statement, number) != Held::Empty)
        };
        let rows = self.policy.rows_of(statement);
        is_left(&statement.actions)
            && is_left(&statement.resources)
            && rows.iter().all(|row| is_left(&row.entries))
    }

    fn held(&self, statement: &Statement, number: usize) -> Held<'a> {
        match self.room {
            Some(room) if statement.effect == Effect::Allow => row::read(&room[row::place(number)]),
            _ => Held::Itself,
        }
    }

    fn statement(&mut self, statement: &Statement) {
        self.put("{");
        if let Some(sid) = self.policy.sid(statement) {
            self.put("\"Sid\":\"");
            write_string(sid, self.output);
            self.put("\",");
        }
        self.put(match statement.effect {
            Effect::Allow => "\"Effect\":\"Allow\",",
            Effect::Deny => "\"Effect\":\"Deny\",",
        });
        self.put("\"Action\":");
        self.list(statement, &statement.actions);
        self.put("\"Resource\":");
        self.list(statement, &statement.resources);
        let rows = self.policy.rows_of(statement);
        if !rows.is_empty() {
            self.condition(statement, rows);
        }
        self.close("},");
    }

    /// Rows of one operator stand together, since no operator is repeated.
    fn condition(&mut self, statement: &Statement, rows: &[ConditionRow]) {
        self.put("\"Condition\":{");
        for group in rows.chunk_by(|one, next| one.operator == next.operator) {
            self.put(match group[0].operator {
                Operator::StringEquals => "\"StringEquals\":{",
                Operator::StringLike => "\"StringLike\":{",
                Operator::NumericLessThanEquals => "\"NumericLessThanEquals\":{",
            });
            for row in group {
                self.put("\"");
                write_string(self.policy.key(row), self.output);
                self.put("\":");
                self.list(statement, &row.entries);
            }
            self.close("},");
        }
        self.close("},");
    }

    fn list(&mut self, statement: &Statement, entries: &Range<usize>) {
        let policy = self.policy;
        self.put("[");
        for number in entries.clone() {
            let held = self.held(statement, number);
            if held != Held::Empty {
                self.put("\"");
                self.entry(&policy.entries[number], held);
                self.put("\",");
            }
        }
        self.close("],");
    }

    fn entry(&mut self, entry: &Entry, held: Held) {
        match (held, entry.shape) {
            (Held::Number(number), _) | (Held::Itself, Shape::UpTo(number)) => self.number(number),
            (Held::Itself, _) => self.symbols(entry.field, self.policy.symbols(entry)),
            (Held::Single(text), _) => self.symbols(entry.field, text),
            (Held::Beginning(text), _) => {
                self.symbols(entry.field, text);
                self.put("*");
            }
            (Held::Empty, _) => {}
        }
    }

    fn symbols(&mut self, field: Field, symbols: &[u32]) {
        let mut rest = symbols;
        while let Some(special) = rest.iter().position(|&symbol| !is_written_bare(symbol)) {
            self.bare(&rest[..special]);
            self.special(field, rest[special]);
            rest = &rest[special + 1..];
        }
        self.bare(rest);
    }

    fn bare(&mut self, symbols: &[u32]) {
        self.output
            .extend(symbols.iter().map(|&symbol| symbol as u8));
    }

    fn special(&mut self, field: Field, symbol: u32) {
        let has_wildcards = field != Field::Row(Operator::StringEquals);
        match symbol {
            ANY_RUN => self.put("*"),
            ANY_ONE => self.put("?"),
            0x24 => self.put("${$}"),
            0x2A if has_wildcards && !fault::is_on(Fault::LoggedStarBare) => self.put("${*}"),
            0x3F if has_wildcards => self.put("${?}"),
            _ => write_character(symbol, self.output),
        }
    }

    fn number(&mut self, number: u64) {
        write!(self.output, "{number}").expect("a vector takes every byte");
    }

    fn put(&mut self, text: &str) {
        self.output.extend_from_slice(text.as_bytes());
    }

    /// Every item is written with a comma behind it; the last one's is taken
    /// back where the list or object closes.
    fn close(&mut self, text: &str) {
        if self.output.last() == Some(&b',') {
            self.output.pop();
        }
        self.put(text);
    }
}

/// Symbols that are written as one byte whatever field they stand in.
fn is_written_bare(symbol: u32) -> bool {
    matches!(symbol, 0x2B..=0x3E | 0x40..=0x5B | 0x5D..=0x7E)
}
