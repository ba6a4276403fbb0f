//! The least candidate, found by listing candidates and comparing them.

use super::{matches, pieces_match};
use crate::generate::plan::*;
use crate::limits::ENTRY_CHARACTERS;

/// What stands before a final star that is the only wildcard.
pub fn final_star(pieces: &[Piece]) -> Option<&[Piece]> {
    let (last, before) = pieces.split_last()?;
    let plain = before.iter().all(|piece| matches!(piece, Piece::Plain(_)));
    (*last == Piece::Star && plain).then_some(before)
}

/// The candidate that covers all that was charged and lies in all others that
/// do; none where nothing was charged.
pub fn least(spot: Spot, entry: &PlannedEntry, charged: &[PlannedValue]) -> Option<PlannedEntry> {
    let candidates = candidates(spot, entry, charged);
    let covering = candidates
        .iter()
        .filter(|c| charged.iter().all(|value| matches(c, value)));
    let covering: Vec<&PlannedEntry> = covering.collect();
    let mut least = covering
        .iter()
        .filter(|c| covering.iter().all(|d| is_part_of(c, d)));
    (!charged.is_empty())
        .then(|| (**least.next().expect("one candidate lies in all others")).clone())
}

/// Every candidate that could cover the charged values, and some that do not.
fn candidates(spot: Spot, entry: &PlannedEntry, charged: &[PlannedValue]) -> Vec<PlannedEntry> {
    let mut found = vec![entry.clone()];
    for value in charged {
        match (entry, value) {
            (PlannedEntry::Text(pieces), PlannedValue::Text(text)) => {
                let texts = narrower_patterns(pieces, text).into_iter();
                let legal = texts.filter(|t| t.len() <= ENTRY_CHARACTERS && is_legal(spot, t));
                found.extend(legal.map(PlannedEntry::Text));
            }
            (_, PlannedValue::Number(number)) => found.push(PlannedEntry::Number(*number)),
            _ => {}
        }
    }
    found
}

/// The text alone and, under a final star, each longer beginning of it.
fn narrower_patterns(pieces: &[Piece], text: &str) -> Vec<Pattern> {
    let text = plain(text);
    let wild = pieces.iter().any(|piece| !matches!(piece, Piece::Plain(_)));
    let mut patterns = Vec::new();
    if let Some(own) = final_star(pieces) {
        for length in own.len() + 1..=text.len() {
            let mut beginning = text[..length].to_vec();
            beginning.push(Piece::Star);
            patterns.push(beginning);
        }
    }
    if wild {
        patterns.push(text);
    }
    patterns
}

/// Whether all that one candidate of an entry matches, another one does.
fn is_part_of(one: &PlannedEntry, other: &PlannedEntry) -> bool {
    match (one, other) {
        (PlannedEntry::Number(one), PlannedEntry::Number(other)) => one <= other,
        (PlannedEntry::Text(one), PlannedEntry::Text(other)) => {
            let beginnings = final_star(one).zip(final_star(other));
            let inside = beginnings.is_some_and(|(longer, shorter)| longer.starts_with(shorter));
            let text: Option<Vec<char>> = one.iter().map(plain_character).collect();
            one == other || inside || text.is_some_and(|text| pieces_match(other, &text))
        }
        _ => false,
    }
}

fn plain_character(piece: &Piece) -> Option<char> {
    match piece {
        Piece::Plain(character) => Some(*character),
        _ => None,
    }
}

/// Whether the pieces would read as an entry at this spot.
pub fn is_legal(spot: Spot, pieces: &[Piece]) -> bool {
    let colon = Piece::Plain(':');
    match spot {
        Spot::Under(_) => true,
        _ if pieces == [Piece::Star] => true,
        Spot::Resource => {
            let colons = pieces.iter().filter(|piece| **piece == colon).count();
            colons >= 5 && pieces.starts_with(&plain("arn:"))
        }
        Spot::Action => {
            let parts: Vec<&[Piece]> = pieces.split(|piece| *piece == colon).collect();
            let fits = |piece: &Piece, wild: bool| match piece {
                Piece::Plain(c) => c.is_ascii_alphanumeric() || "-_.".contains(*c),
                _ => wild,
            };
            parts.len() == 2
                && parts.iter().all(|part| !part.is_empty())
                && parts[0].iter().all(|piece| fits(piece, false))
                && parts[1].iter().all(|piece| fits(piece, true))
        }
    }
}
