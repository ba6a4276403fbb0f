//! What the entries of Allow statements may be narrowed to, and the least of
//! these that covers what was charged.

use crate::fault::{self, Fault};
use crate::forms;
use crate::limits::ENTRY_CHARACTERS;
use crate::matching::{own_beginning, text_matches};
use crate::policy::{Entry, Field, Policy, Shape};
use crate::record_layout::Value;

/// What a row holds for its entry.
#[derive(Debug, Clone, Copy, PartialEq, Eq)]
pub enum Held<'a> {
    /// Nothing was charged; Finish drops the entry.
    Empty,
    /// The entry as it stands in the policy. Number entries never hold this:
    /// their own bound is a number like any other.
    Itself,
    /// One text.
    Single(&'a [u32]),
    /// Every text with this beginning, which is longer than the entry's own.
    Beginning(&'a [u32]),
    /// Every number up to this one.
    Number(u64),
}

/// The least candidate that covers two others, told by where it comes from.
#[derive(Debug, Clone, Copy, PartialEq, Eq)]
pub enum Least {
    First,
    Second,
    Itself,
    /// The beginning of this many characters that both share.
    Shared(usize),
}

/// Whether a row may hold this for the entry.
pub fn is_candidate(policy: &Policy, entry: &Entry, held: Held) -> bool {
    let symbols = policy.symbols(entry);
    match (entry.shape, held) {
        (_, Held::Empty) => true,
        (Shape::UpTo(bound), Held::Number(number)) => number <= bound,
        (Shape::UpTo(_), _) | (_, Held::Number(_)) => false,
        (_, Held::Itself) => true,
        // A plain entry's only text is itself, which is held as such.
        (Shape::Plain, _) => false,
        (shape, Held::Single(text)) => {
            text.len() <= ENTRY_CHARACTERS
                && text.iter().all(|&c| forms::is_character(c))
                && text_matches(shape, symbols, text)
                && single_is_legal(entry.field, text)
        }
        (Shape::FinalStar, Held::Beginning(text)) => {
            let own = own_beginning(symbols);
            text.len() > own.len()
                && text.len() < ENTRY_CHARACTERS
                && text.starts_with(own)
                && text.iter().all(|&c| forms::is_character(c))
                && beginning_is_legal(entry.field, text)
        }
        (Shape::OtherWildcards, Held::Beginning(_)) => false,
    }
}

/// The least candidate that covers one value which the entry matches.
pub fn least_for<'v>(entry: &Entry, value: Value<'v>) -> Held<'v> {
    match (entry.shape, value) {
        (_, Value::Number(number)) => Held::Number(number),
        (Shape::FinalStar | Shape::OtherWildcards, Value::Text(text))
            if single_is_legal(entry.field, text) =>
        {
            Held::Single(text)
        }
        _ => Held::Itself,
    }
}

/// The least candidate that covers two candidates of the entry.
pub fn least(policy: &Policy, entry: &Entry, first: Held, second: Held) -> Least {
    match (first, second) {
        (_, Held::Empty) => Least::First,
        (Held::Empty, _) => Least::Second,
        (Held::Number(one), Held::Number(other)) if one < other => Least::Second,
        (Held::Number(_), _) | (_, Held::Number(_)) => Least::First,
        (Held::Itself, _) | (_, Held::Itself) => Least::Itself,
        _ if first == second => Least::First,
        (
            Held::Single(one) | Held::Beginning(one),
            Held::Single(other) | Held::Beginning(other),
        ) => least_of_texts(policy, entry, one, other),
    }
}

/// Two different texts or beginnings. The shared beginning is shorter than one
/// of them or is itself a held beginning, so it is never too long; and where it
/// is not legal, neither is any shorter one.
fn least_of_texts(policy: &Policy, entry: &Entry, one: &[u32], other: &[u32]) -> Least {
    if entry.shape != Shape::FinalStar {
        return Least::Itself;
    }
    let length = shared_beginning(one, other);
    let own = own_beginning(policy.symbols(entry)).len();
    if length <= own || !beginning_is_legal(entry.field, &one[..length]) {
        return Least::Itself;
    }
    Least::Shared(length)
}

fn shared_beginning(one: &[u32], other: &[u32]) -> usize {
    if fault::is_on(Fault::BeginningCutInBytes) {
        return shared_in_bytes(one, other);
    }
    one.iter().zip(other).take_while(|(a, b)| a == b).count()
}

/// The faulty measure: a character counts as shared once its first byte is.
fn shared_in_bytes(one: &[u32], other: &[u32]) -> usize {
    let first_byte = |symbol: u32| {
        let mut bytes = [0; 4];
        let character = char::from_u32(symbol).unwrap_or_default();
        character.encode_utf8(&mut bytes);
        bytes[0]
    };
    let pairs = one.iter().zip(other);
    let whole = pairs.take_while(|(a, b)| a == b).count();
    let next = one.get(whole).zip(other.get(whole));
    whole + usize::from(next.is_some_and(|(&a, &b)| first_byte(a) == first_byte(b)))
}

/// A text without wildcards that would read as an entry of the field.
fn single_is_legal(field: Field, text: &[u32]) -> bool {
    match field {
        Field::Action => forms::is_action(text),
        Field::Resource => forms::is_arn(text),
        Field::Row(_) => true,
    }
}

/// A text that would read as an entry of the field with a star behind it.
fn beginning_is_legal(field: Field, text: &[u32]) -> bool {
    match field {
        Field::Action => forms::begins_action(text),
        Field::Resource => forms::is_arn(text),
        Field::Row(_) => true,
    }
}
