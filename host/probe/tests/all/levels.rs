//! Texts about sixteen levels deep, and what breaks before and behind them.

use crate::{compare, compare_cuts};
use second::generate::random::Random;
use second::generate::share::share;
use second::Scan;

/// Lists and objects, one inside the other, as `objects` has them from its
/// lowest bit on.
fn nest(levels: usize, objects: u64, inside: &[u8]) -> Vec<u8> {
    let is_object = |level: usize| objects >> level & 1 == 1;
    let mut text = Vec::new();
    for level in 0..levels {
        let open: &[u8] = if is_object(level) { b"{\"a\": " } else { b"[" };
        text.extend_from_slice(open);
    }
    text.extend_from_slice(inside);
    for level in (0..levels).rev() {
        text.push(if is_object(level) { b'}' } else { b']' });
    }
    text
}

#[test]
fn the_seventeenth_level_is_too_deep() {
    for objects in [0, u64::MAX, 0xAAAA_AAAA, 0x5555_5555] {
        assert_eq!(probe::scan(&nest(16, objects, b"1")), Scan::Whole);
        assert_eq!(probe::scan(&nest(17, objects, b"1")), Scan::TooDeep);
    }
}

#[test]
fn nested_texts_agree() {
    let mut random = Random::new(3);
    let insides: [&[u8]; 8] = [b"", b"0", b"\"\xC3\xA9\"", b"[]", b"{}", b"]", b"1,2", b"-"];
    for levels in 14..=19 {
        for inside in insides {
            compare_cuts(&nest(levels, 0, inside));
            for _ in 0..share(40) {
                compare_cuts(&nest(levels, random.draw(), inside));
            }
        }
    }
}

/// Whichever comes first decides: a break before the seventeenth level is
/// told, one behind it is not.
#[test]
fn breaks_before_and_behind_agree() {
    let broken: [&[u8]; 7] = [
        b"01",
        b"\"\\x\"",
        b"tru ",
        b",",
        b"\xFF",
        b"\"\xED\xA0\x80\"",
        b"]",
    ];
    for bad in broken {
        for levels in [16, 17] {
            let deep = nest(levels - 1, 0, b"1");
            let before = [b"[", bad, b",", &deep[..], b"]"].concat();
            let behind = [b"[", &deep[..], b",", bad, b"]"].concat();
            let expected = if levels == 16 {
                Scan::Whole
            } else {
                Scan::TooDeep
            };
            assert_eq!(probe::scan(&[b"[", &deep[..], b"]"].concat()), expected);
            assert!(matches!(probe::scan(&before), Scan::Breaks(_)));
            for text in [before, behind] {
                compare(&text);
                compare_cuts(&text);
            }
        }
    }
}
