//! Entries as symbols: wildcards, and the plain characters that the three
//! escapes stand for.

use crate::forms::{self, ANY_ONE, ANY_RUN};
use crate::members::Mismatch;
use crate::policy::{Field, Operator, Shape};

/// What an entry can match, told by its wildcards.
pub fn shape(symbols: &[u32]) -> Shape {
    let wildcards = symbols.iter().filter(|&&s| forms::is_wildcard(s)).count();
    match wildcards {
        0 => Shape::Plain,
        1 if symbols.last() == Some(&ANY_RUN) => Shape::FinalStar,
        _ => Shape::OtherWildcards,
    }
}

/// Turns the characters from `start` on into symbols: wildcards where the
/// field has them, and the plain character for each of the three escapes. In
/// an Action an escape cannot stand, but neither can the character it leaves.
pub fn resolve(store: &mut Vec<u32>, start: usize, field: Field) -> Result<(), Mismatch> {
    let special = |&c: &u32| matches!(c, 0x24 | 0x2A | 0x3F);
    let Some(first) = store[start..].iter().position(special) else {
        return Ok(());
    };
    let has_wildcards = field != Field::Row(Operator::StringEquals);
    // Symbols never outnumber the characters read, so both share the store.
    let (mut from, mut to) = (start + first, start + first);
    while from < store.len() {
        let (symbol, used) = symbol_at(&store[from..], has_wildcards)?;
        store[to] = symbol;
        from += used;
        to += 1;
    }
    store.truncate(to);
    Ok(())
}

/// The next symbol and the number of characters that it takes.
fn symbol_at(rest: &[u32], has_wildcards: bool) -> Result<(u32, usize), Mismatch> {
    const OPEN: [u32; 2] = [b'$' as u32, b'{' as u32];
    const CLOSE: u32 = b'}' as u32;
    match rest {
        [0x2A, ..] if has_wildcards => Ok((ANY_RUN, 1)),
        [0x3F, ..] if has_wildcards => Ok((ANY_ONE, 1)),
        _ if !rest.starts_with(&OPEN) => Ok((rest[0], 1)),
        [_, _, plain @ (0x24 | 0x2A | 0x3F), CLOSE, ..] => Ok((*plain, 4)),
        _ => Err(Mismatch::Layout),
    }
}
