//! What keys, Sids, actions, resources and numbers look like, whether they
//! stand in a policy, in a record or in a room.
//!
//! Entries are runs of symbols: a plain character is its own number, and the
//! two wildcards have numbers that no character has. A plain `*` and the
//! wildcard are therefore never mistaken for each other.

use crate::limits::{KEY_CHARACTERS, LARGEST_NUMBER, SID_CHARACTERS};

/// The wildcard for any run of characters.
pub const ANY_RUN: u32 = 0x11_0000;
/// The wildcard for exactly one character.
pub const ANY_ONE: u32 = 0x11_0001;

const COLON: u32 = b':' as u32;
const RESOURCE_COLONS: usize = 5;

pub fn is_wildcard(symbol: u32) -> bool {
    symbol == ANY_RUN || symbol == ANY_ONE
}

/// Whether a number is a Unicode scalar value.
pub fn is_character(number: u32) -> bool {
    char::from_u32(number).is_some()
}

/// What the ASCII characters are good for, as sums of the constants below.
static USES: [u8; 128] = uses();

const IN_SID: u8 = 1;
const IN_ACTION: u8 = 2;
const IN_KEY: u8 = 4;

const fn uses() -> [u8; 128] {
    let mut uses = [0; 128];
    let mut byte: u8 = 0;
    while byte < 128 {
        uses[byte as usize] = match byte {
            b'0'..=b'9' | b'A'..=b'Z' | b'a'..=b'z' => IN_SID | IN_ACTION | IN_KEY,
            b'-' | b'_' | b'.' => IN_ACTION | IN_KEY,
            b':' | b'/' => IN_KEY,
            _ => 0,
        };
        byte += 1;
    }
    uses
}

fn serves(symbol: u32, use_of_it: u8) -> bool {
    let uses = USES.get(symbol as usize).copied();
    uses.unwrap_or(0) & use_of_it != 0
}

/// Whether a key is formed of the right characters; its length is a matter of
/// limits, which policies and records refuse under different numbers.
pub fn is_key(characters: &[u32]) -> bool {
    !characters.is_empty() && characters.iter().all(|&c| serves(c, IN_KEY))
}

pub fn key_is_too_long(characters: &[u32]) -> bool {
    characters.len() > KEY_CHARACTERS
}

/// Keys are compared without regard to ASCII case.
pub fn same_key(one: &[u32], other: &[u32]) -> bool {
    let lower = |symbol: u32| match symbol {
        0x41..=0x5A => symbol + 0x20,
        _ => symbol,
    };
    one.len() == other.len() && one.iter().zip(other).all(|(&a, &b)| lower(a) == lower(b))
}

pub fn is_sid(characters: &[u32]) -> bool {
    (1..=SID_CHARACTERS).contains(&characters.len())
        && characters.iter().all(|&c| serves(c, IN_SID))
}

/// A vendor, one colon and a name, where the name may have wildcards; or the
/// lone wildcard. Without wildcards among the symbols it is a plain action.
pub fn is_action(symbols: &[u32]) -> bool {
    symbols == [ANY_RUN] || has_action_parts(symbols, false)
}

/// Whether these symbols followed by the wildcard for any run are an action.
pub fn begins_action(symbols: &[u32]) -> bool {
    symbols.is_empty() || has_action_parts(symbols, true)
}

fn has_action_parts(symbols: &[u32], wildcard_follows: bool) -> bool {
    let Some(colon) = symbols.iter().position(|&s| s == COLON) else {
        return false;
    };
    let (vendor, name) = (&symbols[..colon], &symbols[colon + 1..]);
    let name_is_there = wildcard_follows || !name.is_empty();
    !vendor.is_empty()
        && name_is_there
        && vendor.iter().all(|&s| serves(s, IN_ACTION))
        && name.iter().all(|&s| serves(s, IN_ACTION) || is_wildcard(s))
}

/// Everything a Resource entry can be but the lone wildcard. A wildcard at the
/// end changes nothing here, so this also judges beginnings.
pub fn is_arn(symbols: &[u32]) -> bool {
    let arn = b"arn:".map(u32::from);
    let colons = symbols.iter().filter(|&&s| s == COLON);
    symbols.starts_with(&arn) && colons.take(RESOURCE_COLONS).count() == RESOURCE_COLONS
}

/// The number that plain digits mean, if they are one that conditions take.
pub fn number(digits: impl ExactSizeIterator<Item = u32>) -> Option<u64> {
    let count = digits.len();
    let mut value: u64 = 0;
    for (index, symbol) in digits.enumerate() {
        let digit = char::from_u32(symbol)?.to_digit(10)?;
        if index == 0 && digit == 0 && count > 1 {
            return None;
        }
        value = value * 10 + u64::from(digit);
        if value > LARGEST_NUMBER {
            return None;
        }
    }
    (count > 0).then_some(value)
}
