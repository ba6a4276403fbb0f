//! Both sides of every limit of a policy.

use crate::tables::{framed, policies, Expected, ACCEPTED, POLICY_BYTES, POLICY_LIMIT};
use crate::texts::*;

#[test]
fn statements_in_a_policy() {
    let frame = |count: usize| policy(&list_of(ALLOW, count));
    let table = [
        (1, ACCEPTED),
        (15, ACCEPTED),
        (16, ACCEPTED),
        (17, POLICY_LIMIT),
        (32, POLICY_LIMIT),
        (200, POLICY_LIMIT),
    ];
    policies(framed(frame, &table));
}

/// So many actions, resources and entries of two rows, in a statement.
type Counts = [usize; 4];

fn counted([actions, resources, texts, numbers]: Counts, effect: &str) -> String {
    let condition = format!(
        r#"{{"StringLike":{{"k":{}}},"NumericLessThanEquals":{{"k":{}}}}}"#,
        list_of("\"v\"", texts),
        list_of("0", numbers)
    );
    format!(
        r#"{{"Effect":"{effect}","Action":{},"Resource":{},"Condition":{condition}}}"#,
        list_of("\"*\"", actions),
        list_of("\"*\"", resources)
    )
}

#[test]
fn entries_in_a_policy() {
    let one: [(Counts, Expected); 10] = [
        ([61, 1, 1, 1], ACCEPTED),
        ([62, 1, 1, 1], POLICY_LIMIT),
        ([1, 61, 1, 1], ACCEPTED),
        ([1, 62, 1, 1], POLICY_LIMIT),
        ([1, 1, 61, 1], ACCEPTED),
        ([1, 1, 62, 1], POLICY_LIMIT),
        ([1, 1, 1, 61], ACCEPTED),
        ([1, 1, 1, 62], POLICY_LIMIT),
        ([16, 16, 16, 16], ACCEPTED),
        ([16, 16, 16, 17], POLICY_LIMIT),
    ];
    policies(framed(|counts| policy(&counted(counts, "Allow")), &one));
    policies(framed(|counts| policy(&counted(counts, "Deny")), &one));
    let several: [(&[Counts], Expected); 6] = [
        (&[[8; 4], [8; 4]], ACCEPTED),
        (&[[8; 4], [8, 8, 8, 9]], POLICY_LIMIT),
        (&[[8, 8, 9, 8], [8; 4]], POLICY_LIMIT),
        (&[[4; 4]; 4], ACCEPTED),
        (&[[1; 4]; 16], ACCEPTED),
        (&[[4; 4], [4; 4], [4; 4], [4; 4], [1; 4]], POLICY_LIMIT),
    ];
    let mixed = |counts: &[Counts]| {
        let effects = ["Deny", "Allow"].into_iter().cycle();
        let all: Vec<_> = counts
            .iter()
            .zip(effects)
            .map(|(c, e)| counted(*c, e))
            .collect();
        statements(&all)
    };
    policies(framed(mixed, &several));
    let alone = |count: usize| with_action(&list_of("\"a:b\"", count));
    let table = [(63, ACCEPTED), (64, POLICY_LIMIT), (1000, POLICY_LIMIT)];
    policies(framed(alone, &table));
}

/// So many rows under each of the three operators.
fn with_rows([equal, like, most]: [usize; 3]) -> String {
    let rows = |operator: &str, count: usize, value: &str| {
        let rows: Vec<_> = (0..count).map(|n| format!(r#""k{n}":{value}"#)).collect();
        (count > 0).then(|| format!(r#""{operator}":{{{}}}"#, rows.join(",")))
    };
    let operators = [
        rows("StringEquals", equal, "\"v\""),
        rows("StringLike", like, "\"v\""),
        rows("NumericLessThanEquals", most, "0"),
    ];
    let operators: Vec<_> = operators.into_iter().flatten().collect();
    conditional(&format!("{{{}}}", operators.join(",")))
}

#[test]
fn rows_in_a_statement() {
    let table = [
        ([8, 0, 0], ACCEPTED),
        ([9, 0, 0], POLICY_LIMIT),
        ([0, 8, 0], ACCEPTED),
        ([0, 9, 0], POLICY_LIMIT),
        ([0, 0, 8], ACCEPTED),
        ([0, 0, 9], POLICY_LIMIT),
        ([3, 3, 2], ACCEPTED),
        ([3, 3, 3], POLICY_LIMIT),
        ([1, 6, 1], ACCEPTED),
        ([7, 1, 1], POLICY_LIMIT),
        ([20, 20, 20], POLICY_LIMIT),
    ];
    policies(framed(|rows| policy(&with_rows(rows)), &table));
    let full = with_rows([3, 3, 2]);
    let over = with_rows([3, 3, 3]);
    policies([
        (
            statements(&[full.clone(), full.clone(), full.clone()]),
            ACCEPTED,
        ),
        (statements(&[full.clone(), over.clone()]), POLICY_LIMIT),
        (statements(&[over, full]), POLICY_LIMIT),
    ]);
}

/// What counts as one character, and whether an action may have it.
const CHARACTERS: [(&str, bool); 17] = [
    ("a", true),
    ("*", true),
    ("?", true),
    (r"\u0061", true),
    (r"\u002a", true),
    ("${*}", false),
    ("${?}", false),
    ("${$}", false),
    ("$", false),
    (r"\u0024{*}", false),
    ("é", false),
    (r"\u00e9", false),
    ("語", false),
    ("𝄞", false),
    (r"\ud834\udd1e", false),
    (r"\n", false),
    (r"\/", false),
];

/// Both sides for an entry of one character again and again, behind this
/// beginning, alone and in lists.
fn sides(frame: impl Fn(&str) -> String, beginning: &str, character: &str) {
    let long = |length: usize| {
        let rest = character.repeat(length - beginning.len());
        quoted(&format!("{beginning}{rest}"))
    };
    policies([
        (frame(&long(253)), ACCEPTED),
        (frame(&long(254)), ACCEPTED),
        (frame(&long(255)), POLICY_LIMIT),
        (frame(&long(600)), POLICY_LIMIT),
        (frame(&format!(r#"["*",{}]"#, long(254))), ACCEPTED),
        (frame(&format!(r#"["*",{}]"#, long(255))), POLICY_LIMIT),
        (frame(&format!(r#"[{},"*"]"#, long(255))), POLICY_LIMIT),
    ]);
}

#[test]
fn characters_of_an_entry() {
    for (character, in_action) in CHARACTERS {
        if in_action {
            sides(with_action, "a:", character);
        }
        sides(with_resource, "arn:::::", character);
        sides(
            |values| with_row("StringEquals", "k", values),
            "",
            character,
        );
        sides(|values| with_row("StringLike", "k", values), "", character);
    }
}

/// The three parts of an escape count as one, other dollars as themselves.
#[test]
fn escapes_in_a_long_entry() {
    let frame = |(end, plain): (&str, usize)| {
        with_row(
            "StringLike",
            "k",
            &quoted(&format!("{}{end}", "v".repeat(plain))),
        )
    };
    let table = [
        (("${*}*", 252), ACCEPTED),
        (("${*}*", 253), POLICY_LIMIT),
        (("$${$}", 252), ACCEPTED),
        (("$${$}", 253), POLICY_LIMIT),
        (("${$}{x}", 250), ACCEPTED),
        (("${$}{x}", 251), POLICY_LIMIT),
        (("${?}${*}${$}", 251), ACCEPTED),
        (("${?}${*}${$}", 252), POLICY_LIMIT),
        (("e\u{301}", 252), ACCEPTED),
        (("e\u{301}", 253), POLICY_LIMIT),
    ];
    policies(framed(frame, &table));
}

#[test]
fn bytes() {
    let short = policy(ALLOW);
    let before = |length: usize| format!("{}{short}", " ".repeat(length - short.len()));
    policies([
        (padded(&short, 16_383), ACCEPTED),
        (padded(&short, 16_384), ACCEPTED),
        (padded(&short, 16_385), POLICY_BYTES),
        (before(16_384), ACCEPTED),
        (before(16_385), POLICY_BYTES),
        (" ".repeat(16_384), (3, 16_384)),
        (" ".repeat(16_385), POLICY_BYTES),
        ("x".repeat(100_000), POLICY_BYTES),
    ]);
}

/// A policy of about the greatest length that says something everywhere.
#[test]
fn a_full_policy() {
    let texts = |count: usize, length: usize| {
        let text = |n: usize| format!("\"arn:::::{n:0width$}\"", width = length - 8);
        let texts: Vec<_> = (0..count).map(text).collect();
        format!("[{}]", texts.join(","))
    };
    let text = with_resource(&texts(63, 254));
    assert!(text.len() > 16_000, "{}", text.len());
    let room = 16_384 - text.len();
    policies([
        (padded(&text, 16_384), ACCEPTED),
        (format!("{}{text}", "\n".repeat(room)), ACCEPTED),
        (padded(&text, 16_385), POLICY_BYTES),
    ]);
}
