//! Whether an entry matches a value.

use crate::forms::{ANY_ONE, ANY_RUN};
use crate::policy::{Entry, Policy, Shape};
use crate::record_layout::Value;

/// A value of the wrong kind is matched by nothing.
pub fn entry_matches(policy: &Policy, entry: &Entry, value: Value) -> bool {
    match (entry.shape, value) {
        (Shape::UpTo(bound), Value::Number(number)) => number <= bound,
        (Shape::UpTo(_), Value::Text(_)) | (_, Value::Number(_)) => false,
        (shape, Value::Text(text)) => text_matches(shape, policy.symbols(entry), text),
    }
}

/// Whether the symbols of an entry of this shape match the text.
pub fn text_matches(shape: Shape, symbols: &[u32], text: &[u32]) -> bool {
    match shape {
        Shape::Plain => symbols == text,
        Shape::FinalStar => text.starts_with(own_beginning(symbols)),
        Shape::OtherWildcards => wildcards_match(symbols, text),
        Shape::UpTo(_) => false,
    }
}

/// What stands before the final star of an entry that has no other wildcard.
pub fn own_beginning(symbols: &[u32]) -> &[u32] {
    symbols.split_last().map_or(symbols, |(_, before)| before)
}

/// Walks both at once. On a mismatch only the latest star has to be tried with
/// one more character: what earlier stars took can stay as short as it was,
/// since the latest star makes up for any difference.
fn wildcards_match(symbols: &[u32], text: &[u32]) -> bool {
    let (mut s, mut t) = (0, 0);
    // Where to resume: behind the latest star, and behind the text it took.
    let mut resume: Option<(usize, usize)> = None;
    while t < text.len() {
        match symbols.get(s) {
            Some(&ANY_RUN) => {
                s += 1;
                resume = Some((s, t));
                continue;
            }
            Some(&symbol) if symbol == ANY_ONE || symbol == text[t] => {
                s += 1;
                t += 1;
                continue;
            }
            _ => {}
        }
        let Some((behind_star, taken)) = resume else {
            return false;
        };
        resume = Some((behind_star, taken + 1));
        (s, t) = (behind_star, taken + 1);
    }
    symbols[s..].iter().all(|&symbol| symbol == ANY_RUN)
}
