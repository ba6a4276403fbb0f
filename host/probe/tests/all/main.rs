//! The proved text layer against the second implementation, text by text.

mod corpus;
mod generated;
mod levels;
mod places;
mod short;
mod strings;

use second::generate::share::spread;
use std::fmt::Write;

/// Fails with the text in hexadecimal where the two scans differ.
fn compare(text: &[u8]) {
    let (proved, second) = (probe::scan(text), second::scan(text));
    assert!(
        proved == second,
        "the proved scan says {proved:?}, the second {second:?}, of the bytes \"{}\"",
        hexadecimal(text)
    );
}

/// Compares a text cut at every length, the whole of it included.
fn compare_cuts(text: &[u8]) {
    for length in 0..=text.len() {
        compare(&text[..length]);
    }
}

/// Compares a text with each of its first bytes replaced by each of others.
fn compare_replaced(text: &[u8], first: usize, others: impl Iterator<Item = u8> + Clone) {
    let mut changed = text.to_vec();
    for place in 0..text.len().min(first) {
        for other in others.clone() {
            changed[place] = other;
            compare(&changed);
        }
        changed[place] = text[place];
    }
}

/// Compares every text of so many bytes of an alphabet, between a head and a tail.
fn compare_each(head: &[u8], length: usize, alphabet: &[u8], tail: &[u8]) {
    let mut text = [head, &vec![0; length], tail].concat();
    for number in spread(0..alphabet.len().pow(length as u32)) {
        let mut rest = number;
        for byte in &mut text[head.len()..head.len() + length] {
            *byte = alphabet[rest % alphabet.len()];
            rest /= alphabet.len();
        }
        compare(&text);
    }
}

fn hexadecimal(text: &[u8]) -> String {
    text.iter().fold(String::new(), |mut digits, byte| {
        write!(digits, "{byte:02x}").expect("a string takes everything");
        digits
    })
}

#[test]
fn differing_texts_are_shown_in_hexadecimal() {
    assert_eq!(hexadecimal(b"[\xC3\xA9\n"), "5bc3a90a");
}
