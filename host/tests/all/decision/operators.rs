//! The three operators, the types that they take, and several entries.

use super::rows::holds;
use crate::texts::list_of;

/// A row under the key k, for a value under the same key.
fn row(operator: &str, entries: &str, kind: &str, value: &str, expected: bool) {
    let condition = format!(r#"{{"{operator}":{{"k":{entries}}}}}"#);
    holds(&condition, &[("k", kind, value)], expected);
}

#[test]
fn equal_texts() {
    for (entry, value, expected) in [
        ("v", "v", true),
        ("v", "V", false),
        ("v", "w", false),
        ("v", "", false),
        ("v", "vv", false),
        ("vv", "v", false),
        ("v ", "v", false),
        ("v", " v", false),
        ("", "", true),
        ("", "v", false),
        ("", " ", false),
        ("*", "*", true),
        ("*", "v", false),
        ("*", "", false),
        ("?", "?", true),
        ("?", "v", false),
        ("v*", "v*", true),
        ("v*", "vw", false),
        ("${*}", "*", true),
        ("${*}", "${*}", false),
        ("${?}", "?", true),
        ("${?}", "x", false),
        ("${$}", "$", true),
        ("$", "$", true),
        ("$$", "$$", true),
        ("$x", "$x", true),
        ("$${*}", "$*", true),
        ("${$}{x}", "${x}", true),
        ("${$}{*}", "${*}", true),
        ("é", "é", true),
        ("é", r"\u00e9", true),
        (r"\u00E9", "é", true),
        ("é", "e\u{301}", false),
        ("é", "è", false),
        ("𝄞", r"\ud834\udd1e", true),
        ("𝄞", r"\ud834\udd1f", false),
        (r"\u0000", r"\u0000", true),
        (r"\u0000", "", false),
        (r#"\"\\\/"#, r#"\u0022\u005c/"#, true),
        ("\u{7f}\u{ffff}\u{10ffff}", "\u{7f}\u{ffff}\u{10ffff}", true),
        ("7", "7", true),
        ("7", "07", false),
    ] {
        let entries = format!("\"{entry}\"");
        row("StringEquals", &entries, "string", value, expected);
        let several = format!(r#"["nothing","{entry}"]"#);
        row("StringEquals", &several, "string", value, expected);
    }
}

/// Escapes of JSON are resolved before wildcards and before the escapes of
/// policies, which only policies have.
#[test]
fn like_texts() {
    for (entry, value, expected) in [
        ("v", "v", true),
        ("v", "V", false),
        ("", "", true),
        ("", "v", false),
        ("*", "", true),
        ("*", "v", true),
        ("?", "v", true),
        ("?", "", false),
        (r"\u002a", "vw", true),
        (r"\u003f", "v", true),
        (r"\u003f", "vw", false),
        (r"\u0024{*}", "*", true),
        (r"\u0024{*}", "v", false),
        (r"$\u007b?\u007d", "?", true),
        (r"$\u007b?\u007d", "v", false),
        (r"${\u002a}", "*", true),
        (r"${\u002a}", "v", false),
        ("${*}", r"\u002a", true),
        ("${*}", "${*}", false),
        ("${$}{${*}}", "${*}", true),
        ("${$}{*}", "${*}", true),
        ("${$}{*}", "${v}", true),
        ("v*", "${*}", false),
        ("*", "${x}", true),
        (r"*\n", r"v\u000a", true),
    ] {
        let entries = format!("\"{entry}\"");
        row("StringLike", &entries, "string", value, expected);
        let several = format!(r#"["nothing","{entry}"]"#);
        row("StringLike", &several, "string", value, expected);
    }
}

#[test]
fn numbers_not_above() {
    const MOST: u64 = (1 << 53) - 1;
    const HALF: u64 = 1 << 32;
    for (entry, value, expected) in [
        (0, 0, true),
        (0, 1, false),
        (0, MOST, false),
        (1, 0, true),
        (7, 6, true),
        (7, 7, true),
        (7, 8, false),
        (9, 10, false),
        (10, 9, true),
        (99, 100, false),
        (100, 20, true),
        (20, 100, false),
        (HALF - 1, HALF - 1, true),
        (HALF - 1, HALF, false),
        (HALF, HALF - 1, true),
        (HALF, HALF, true),
        (HALF, HALF + 1, false),
        (HALF + 5, 2 * HALF + 1, false),
        (2 * HALF + 1, HALF + 5, true),
        (2 * HALF, HALF + 5, true),
        (2 * HALF, 3 * HALF, false),
        (3 * HALF, 3 * HALF, true),
        (MOST - 1, MOST, false),
        (MOST, MOST, true),
        (MOST, MOST - 1, true),
        (MOST, 0, true),
        (MOST - HALF, MOST - HALF + 1, false),
    ] {
        let value = value.to_string();
        for entries in [format!("{entry}"), format!("\"{entry}\"")] {
            row(
                "NumericLessThanEquals",
                &entries,
                "numeric",
                &value,
                expected,
            );
        }
    }
}

/// A value of another type is met by no entry.
#[test]
fn types() {
    for (operator, entries, kind, value, expected) in [
        ("StringEquals", "\"7\"", "string", "7", true),
        ("StringEquals", "\"7\"", "numeric", "7", false),
        ("StringLike", "\"7\"", "string", "7", true),
        ("StringLike", "\"7\"", "numeric", "7", false),
        ("StringLike", "\"*\"", "string", "7", true),
        ("StringLike", "\"*\"", "numeric", "7", false),
        ("StringLike", "\"?\"", "numeric", "7", false),
        ("NumericLessThanEquals", "7", "numeric", "7", true),
        ("NumericLessThanEquals", "7", "string", "7", false),
        ("NumericLessThanEquals", "\"7\"", "string", "7", false),
        ("NumericLessThanEquals", "[7,9]", "string", "0", false),
        ("NumericLessThanEquals", "0", "string", "", false),
    ] {
        row(operator, entries, kind, value, expected);
    }
}

#[test]
fn several_entries() {
    for (operator, entries, kind, value, expected) in [
        ("StringEquals", r#"["v","w"]"#, "string", "v", true),
        ("StringEquals", r#"["v","w"]"#, "string", "w", true),
        ("StringEquals", r#"["v","w"]"#, "string", "vw", false),
        ("StringEquals", r#"["","w"]"#, "string", "", true),
        ("StringLike", r#"["a*","*b"]"#, "string", "ax", true),
        ("StringLike", r#"["a*","*b"]"#, "string", "xb", true),
        ("StringLike", r#"["a*","*b"]"#, "string", "xbx", false),
        ("StringLike", r#"["","?"]"#, "string", "ab", false),
        ("NumericLessThanEquals", "[5,10]", "numeric", "7", true),
        ("NumericLessThanEquals", "[10,5]", "numeric", "7", true),
        ("NumericLessThanEquals", "[10,5]", "numeric", "11", false),
        (
            "NumericLessThanEquals",
            r#"[5,"10"]"#,
            "numeric",
            "10",
            true,
        ),
        ("NumericLessThanEquals", "[0,0,0]", "numeric", "1", false),
    ] {
        row(operator, entries, kind, value, expected);
    }
    let many = list_of("\"x\"", 61);
    row("StringEquals", &many, "string", "x", true);
    row("StringEquals", &many, "string", "y", false);
    let last = many.replace("\"x\"]", "\"y\"]");
    row("StringEquals", &last, "string", "y", true);
}
