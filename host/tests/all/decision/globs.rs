//! Patterns and texts under StringLike: what matches and what just does not.

use super::patterns::TABLES;
use super::{allowed, decides, every, IMPLICIT};
use crate::texts::{context_entry, quoted, spelled, with_context, with_row};

/// Fails unless a pattern matches a text as expected.
fn like(pattern: &str, text: &str, expected: bool) {
    let policy = with_row("StringLike", "k", &quoted(&spelled(pattern)));
    let record = with_context(&[context_entry("k", "string", &spelled(text))]);
    let expected = if expected { allowed(1) } else { IMPLICIT };
    decides(&policy, &record, expected);
}

#[test]
fn tables() {
    for &(pattern, text, expected) in TABLES.into_iter().flatten() {
        like(pattern, text, expected);
    }
}

/// Patterns and texts as long as they may be.
#[test]
fn long_patterns() {
    let some = |part: &str, count: usize| part.repeat(count);
    let most = 254;
    for (pattern, text, expected) in [
        (some("a", most), some("a", most), true),
        (some("a", most), some("a", most - 1), false),
        (some("?", most), some("語", most), true),
        (some("?", most), some("語", most - 1), false),
        (some("?", most - 1), some("語", most), false),
        (some("*", most), String::new(), true),
        (some("*", most), some("𝄞", most), true),
        (some("${*}", most), some("*", most), true),
        (some("${*}", most), some("*", most - 1), false),
        (some("*a", 127), some("a", most), true),
        (some("*a", 127), some("a", 127), true),
        (some("*a", 127), some("a", 126), false),
        (some("a*", 127), some("a", most), true),
        (some("a*", 127), some("a", 126), false),
        (some("*a", 126) + "*b", some("a", most), false),
        (some("*a", 126) + "*b", some("a", 253) + "b", true),
        (some("*ab", 84), some("ab", 127), true),
        (some("*ab", 84), some("a", most), false),
        (some("a", 126) + "*b", some("a", most), false),
        (
            String::from("*") + &some("a", 126) + "b",
            some("a", most),
            false,
        ),
        (
            String::from("*") + &some("a", 126) + "b",
            some("a", 253) + "b",
            true,
        ),
        (String::from("*") + &some("?", 253), some("a", 253), true),
        (String::from("*") + &some("?", 253), some("a", 252), false),
        (some("?*", 127), some("a", 127), true),
        (some("?*", 127), some("a", 126), false),
    ] {
        like(&pattern, &text, expected);
    }
}

/// By the meaning of the two wildcards, one after the other.
fn meant(pattern: &str, text: &str) -> bool {
    let Some(first) = pattern.chars().next() else {
        return text.is_empty();
    };
    let rest = &pattern[1..];
    match first {
        '*' => (0..=text.len()).any(|taken| meant(rest, &text[taken..])),
        '?' => !text.is_empty() && meant(rest, &text[1..]),
        _ => text.starts_with(first) && meant(rest, &text[1..]),
    }
}

/// Every pattern of up to five symbols on every text of up to four.
#[test]
fn every_short_pattern() {
    let texts = every("ab", 4);
    for pattern in every("ab*?", 5) {
        for text in &texts {
            like(&pattern, text, meant(&pattern, text));
        }
    }
}
