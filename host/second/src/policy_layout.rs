//! Reading a policy text: the layout first, then the limits.

use crate::forms::{self, ANY_RUN};
use crate::json::{Kind, Source};
use crate::members::{gather, string_onto, Mismatch};
use crate::policy::{ConditionRow, Effect, Entry, Field, Operator, Policy, Shape, Statement};
use crate::strings::{reads_as, Span};
use crate::symbols::{resolve, shape};
use std::ops::Range;

/// Reads a scanned text. `Mismatch::Layout` wins over `Mismatch::Limit`
/// wherever the two stand, so excesses are only looked for at the end.
pub fn read(source: Source, policy: &mut Policy) -> Result<(), Mismatch> {
    policy.clear();
    Reader { source, policy }.document()?;
    if policy.is_over_a_limit() {
        return Err(Mismatch::Limit);
    }
    Ok(())
}

struct Reader<'a> {
    source: Source<'a>,
    policy: &'a mut Policy,
}

type Read<T = ()> = Result<T, Mismatch>;

impl Reader<'_> {
    fn document(&mut self) -> Read {
        let [version, statements] = gather(&self.source, 0, ["Version", "Statement"])?;
        self.expect_string(version, "2012-10-17")?;
        let statements = statements.ok_or(Mismatch::Layout)?;
        if self.source.kind(statements) != Kind::List {
            return self.statement(statements);
        }
        for statement in self.source.elements(statements) {
            self.statement(statement)?;
        }
        self.refuse_if(self.policy.statements.is_empty())
    }

    /// Members are first found, then read in reading order, which need not be
    /// the order of the text.
    fn statement(&mut self, node: usize) -> Read {
        let names = ["Sid", "Effect", "Action", "Resource", "Condition"];
        let [sid, effect, action, resource, condition] = gather(&self.source, node, names)?;
        let sid = sid.map(|node| self.sid(node)).transpose()?;
        let effect = self.effect(effect)?;
        let actions = self.entries(action, Field::Action)?;
        let resources = self.entries(resource, Field::Resource)?;
        let first_row = self.policy.rows.len();
        if let Some(condition) = condition {
            self.condition(condition)?;
        }
        self.policy.statements.push(Statement {
            effect,
            sid,
            actions,
            resources,
            rows: first_row..self.policy.rows.len(),
        });
        Ok(())
    }

    fn effect(&self, node: Option<usize>) -> Read<Effect> {
        if self.expect_string(node, "Allow").is_ok() {
            return Ok(Effect::Allow);
        }
        self.expect_string(node, "Deny").map(|()| Effect::Deny)
    }

    fn sid(&mut self, node: usize) -> Read<Span> {
        let span = self.string(node)?;
        let sid = span.of(&self.policy.characters);
        let mut earlier = self.policy.statements.iter();
        let repeated = earlier.any(|s| self.policy.sid(s) == Some(sid));
        self.refuse_if(repeated || !forms::is_sid(sid))?;
        Ok(span)
    }

    fn condition(&mut self, node: usize) -> Read {
        let first_row = self.policy.rows.len();
        let names = ["StringEquals", "StringLike", "NumericLessThanEquals"];
        let operators = [
            Operator::StringEquals,
            Operator::StringLike,
            Operator::NumericLessThanEquals,
        ];
        // Refuses unknown and repeated operators; the walk below keeps the
        // order in which they stand.
        let found = gather(&self.source, node, names)?;
        for (_, value) in self.source.members(node) {
            let which = found.iter().position(|&place| place == Some(value));
            let which = which.ok_or(Mismatch::Layout)?;
            self.operator(operators[which], value)?;
        }
        self.refuse_if(self.policy.rows.len() == first_row)
    }

    fn operator(&mut self, operator: Operator, node: usize) -> Read {
        self.refuse_if(self.source.kind(node) != Kind::Object)?;
        let first_row = self.policy.rows.len();
        for (name, values) in self.source.members(node) {
            let key = self.key(name, first_row)?;
            let entries = self.entries(Some(values), Field::Row(operator))?;
            self.policy.rows.push(ConditionRow {
                operator,
                key,
                entries,
            });
        }
        self.refuse_if(self.policy.rows.len() == first_row)
    }

    /// A key, which no row since `first_row` may have had.
    fn key(&mut self, name: usize, first_row: usize) -> Read<Span> {
        let span = self.string(name)?;
        let key = span.of(&self.policy.characters);
        let mut earlier = self.policy.rows[first_row..].iter();
        let repeated = earlier.any(|row| forms::same_key(self.policy.key(row), key));
        self.refuse_if(repeated || !forms::is_key(key))?;
        Ok(span)
    }

    /// One entry or a list of at least one.
    fn entries(&mut self, node: Option<usize>, field: Field) -> Read<Range<usize>> {
        let node = node.ok_or(Mismatch::Layout)?;
        let first = self.policy.entries.len();
        if self.source.kind(node) == Kind::List {
            for element in self.source.elements(node) {
                self.entry(element, field)?;
            }
        } else {
            self.entry(node, field)?;
        }
        let entries = first..self.policy.entries.len();
        self.refuse_if(entries.is_empty())?;
        Ok(entries)
    }

    fn entry(&mut self, node: usize, field: Field) -> Read {
        let entry = if field == Field::Row(Operator::NumericLessThanEquals) {
            self.number_entry(node, field)?
        } else {
            self.text_entry(node, field)?
        };
        self.policy.entries.push(entry);
        Ok(())
    }

    fn number_entry(&mut self, node: usize, field: Field) -> Read<Entry> {
        let number = if self.source.kind(node) == Kind::Number {
            let raw = self.source.raw(node);
            forms::number(raw.iter().map(|&byte| u32::from(byte)))
        } else {
            let digits = self.string(node)?.of(&self.policy.characters);
            forms::number(digits.iter().copied())
        };
        Ok(Entry {
            field,
            shape: Shape::UpTo(number.ok_or(Mismatch::Layout)?),
            text: Span::default(),
        })
    }

    fn text_entry(&mut self, node: usize, field: Field) -> Read<Entry> {
        let start = self.policy.characters.len();
        self.string(node)?;
        resolve(&mut self.policy.characters, start, field)?;
        let text = Span::since(start, &self.policy.characters);
        let symbols = text.of(&self.policy.characters);
        let legal = match field {
            Field::Action => forms::is_action(symbols),
            Field::Resource => symbols == [ANY_RUN] || forms::is_arn(symbols),
            Field::Row(_) => true,
        };
        self.refuse_if(!legal)?;
        Ok(Entry {
            field,
            shape: shape(symbols),
            text,
        })
    }

    /// Decodes a string onto the store.
    fn string(&mut self, node: usize) -> Read<Span> {
        let start = self.policy.characters.len();
        string_onto(&self.source, node, &mut self.policy.characters)?;
        Ok(Span::since(start, &self.policy.characters))
    }

    fn expect_string(&self, node: Option<usize>, wanted: &str) -> Read {
        let node = node.ok_or(Mismatch::Layout)?;
        let fits = self.source.is_string(node) && reads_as(self.source.raw(node), wanted);
        self.refuse_if(!fits)
    }

    fn refuse_if(&self, against_layout: bool) -> Read {
        if against_layout {
            return Err(Mismatch::Layout);
        }
        Ok(())
    }
}
