//! Reading a record. Every trouble here has the same number, so layout and
//! limits are judged together.

use crate::forms::{self, is_action, is_arn};
use crate::json::{Kind, Source};
use crate::limits::{CONTEXT_ENTRIES, ENTRY_CHARACTERS};
use crate::members::{gather, string_onto, Mismatch};
use crate::strings::{reads_as, Span};

/// A value that entries are compared with. In a record every character is
/// plain.
#[derive(Debug, Clone, Copy, PartialEq, Eq)]
pub enum Value<'a> {
    Text(&'a [u32]),
    Number(u64),
}

#[derive(Debug, Clone, Copy)]
enum Kept {
    Text(Span),
    Number(u64),
}

#[derive(Debug, Clone, Copy)]
struct ContextEntry {
    key: Span,
    value: Kept,
}

/// A record; its stores are reused from text to text.
#[derive(Debug, Default)]
pub struct Record {
    characters: Vec<u32>,
    action: Span,
    resource: Span,
    context: Vec<ContextEntry>,
}

impl Record {
    pub fn action(&self) -> &[u32] {
        self.action.of(&self.characters)
    }

    pub fn resource(&self) -> &[u32] {
        self.resource.of(&self.characters)
    }

    /// Keys with their values, in the order of the text.
    pub fn context(&self) -> impl Iterator<Item = (&[u32], Value<'_>)> {
        self.context.iter().map(|entry| {
            let value = match entry.value {
                Kept::Text(span) => Value::Text(span.of(&self.characters)),
                Kept::Number(number) => Value::Number(number),
            };
            (entry.key.of(&self.characters), value)
        })
    }

    /// The value under a key, if the record has the key.
    pub fn value(&self, key: &[u32]) -> Option<Value<'_>> {
        let mut context = self.context();
        let found = context.find(|(own, _)| forms::same_key(own, key));
        found.map(|(_, value)| value)
    }

    /// Reads a scanned text.
    pub fn read(&mut self, source: Source) -> Result<(), Mismatch> {
        self.characters.clear();
        self.context.clear();
        let names = ["ActionNames", "ResourceArns", "ContextEntries"];
        let [action, resource, context] = gather(&source, 0, names)?;
        self.action = self.only_string(&source, action)?;
        self.resource = match resource {
            Some(_) => self.only_string(&source, resource)?,
            None => self.any_resource(),
        };
        if let Some(context) = context {
            self.read_context(&source, context)?;
        }
        refuse_unless(self.is_formed())
    }

    /// An absent resource means the text `*`.
    fn any_resource(&mut self) -> Span {
        let start = self.characters.len();
        self.characters.push(u32::from(b'*'));
        Span::since(start, &self.characters)
    }

    /// Wildcards are no characters, so the forms of a policy's entries leave
    /// just the plain ones here; the lone star is the one special resource.
    fn is_formed(&self) -> bool {
        let resource = self.resource();
        is_action(self.action()) && (resource == [u32::from(b'*')] || is_arn(resource))
    }

    fn read_context(&mut self, source: &Source, node: usize) -> Result<(), Mismatch> {
        refuse_unless(source.kind(node) == Kind::List)?;
        for element in source.elements(node) {
            refuse_unless(self.context.len() < CONTEXT_ENTRIES)?;
            let entry = self.context_entry(source, element)?;
            self.context.push(entry);
        }
        Ok(())
    }

    fn context_entry(&mut self, source: &Source, node: usize) -> Result<ContextEntry, Mismatch> {
        let names = ["ContextKeyName", "ContextKeyType", "ContextKeyValues"];
        let [name, kind, values] = gather(source, node, names)?;
        let key = self.new_key(source, name)?;
        let text = self.only_string(source, values)?;
        let kind = kind.ok_or(Mismatch::Layout)?;
        refuse_unless(source.is_string(kind))?;
        let value = if reads_as(source.raw(kind), "string") {
            Kept::Text(text)
        } else if reads_as(source.raw(kind), "numeric") {
            let digits = text.of(&self.characters).iter().copied();
            Kept::Number(forms::number(digits).ok_or(Mismatch::Layout)?)
        } else {
            return Err(Mismatch::Layout);
        };
        Ok(ContextEntry { key, value })
    }

    fn new_key(&mut self, source: &Source, node: Option<usize>) -> Result<Span, Mismatch> {
        let span = self.string(source, node.ok_or(Mismatch::Layout)?)?;
        let key = span.of(&self.characters);
        let fits = forms::is_key(key) && !forms::key_is_too_long(key);
        refuse_unless(fits && self.value(key).is_none())?;
        Ok(span)
    }

    /// The string of a list that has nothing else, at most as long as an entry.
    fn only_string(&mut self, source: &Source, node: Option<usize>) -> Result<Span, Mismatch> {
        let list = node.ok_or(Mismatch::Layout)?;
        refuse_unless(source.kind(list) == Kind::List)?;
        let mut elements = source.elements(list);
        let only = elements.next().ok_or(Mismatch::Layout)?;
        refuse_unless(elements.next().is_none())?;
        let span = self.string(source, only)?;
        refuse_unless(span.of(&self.characters).len() <= ENTRY_CHARACTERS)?;
        Ok(span)
    }

    fn string(&mut self, source: &Source, node: usize) -> Result<Span, Mismatch> {
        let start = self.characters.len();
        string_onto(source, node, &mut self.characters)?;
        Ok(Span::since(start, &self.characters))
    }
}

fn refuse_unless(fits: bool) -> Result<(), Mismatch> {
    if fits {
        Ok(())
    } else {
        Err(Mismatch::Layout)
    }
}
