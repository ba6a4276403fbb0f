//! Policies of others, where they are at hand, and records made to match them.

use super::generated::Tally;
use crate::agree;
use crate::texts::{context_entry, spelled};
use second::corpus::{at_hand, ANY_POLICY};
use second::generate::edits::edit;
use second::generate::random::Random;
use second::generate::share::share;
use second::layouts::{self, Row, Statement, Text, Value, ANY_ONE, ANY_RUN};
use std::fs;

#[test]
fn policies_of_others_agree() {
    let Some(folder) = at_hand("policies") else {
        return;
    };
    let mut random = Random::new(9);
    let mut tally = Tally::default();
    let mut last = ANY_POLICY.to_vec();
    let files = fs::read_dir(folder).unwrap();
    let mut paths: Vec<_> = files.map(|file| file.unwrap().path()).collect();
    paths.sort();
    for path in paths {
        let policy = fs::read(path).unwrap();
        let read = layouts::read_policy(&policy);
        for statement in read.map_or(Vec::new(), |read| read.statements) {
            let record = asking(&statement, &mut random).into_bytes();
            tally.count(agree::decide(&policy, &record));
            tally.count(agree::decide(&last, &record));
            for _ in 0..share(20) {
                let edited = edit(&record, &policy, &mut random);
                tally.count(agree::decide(&policy, &edited));
                let edited = edit(&policy, &record, &mut random);
                tally.count(agree::decide(&edited, &record));
            }
        }
        last = policy;
    }
    let wanted = [("Allowed", 500), ("ImplicitlyDenied", 100)];
    tally.at_least("policies of others", &wanted);
}

/// A record that a statement matches: some entry of each list, a plain
/// character for each wildcard.
fn asking(statement: &Statement, random: &mut Random) -> String {
    let action = filled(random.pick::<Text>(&statement.actions), "a:b");
    let resource = filled(random.pick::<Text>(&statement.resources), "*");
    let entry = |row: &Row| match random.pick(&row.entries) {
        Value::Number(most) => context_entry(&plain(&row.key), "numeric", &most.to_string()),
        Value::Text(text) => context_entry(&plain(&row.key), "string", &filled(text, "x")),
    };
    let entries: Vec<_> = statement.rows.iter().map(entry).collect();
    format!(
        r#"{{"ActionNames":["{action}"],"ResourceArns":["{resource}"],"ContextEntries":[{}]}}"#,
        entries.join(",")
    )
}

/// A text that an entry matches, with its own for a lone star.
fn filled(entry: &[u32], lone: &str) -> String {
    if entry == [ANY_RUN] {
        return lone.to_owned();
    }
    plain(entry)
}

fn plain(symbols: &[u32]) -> String {
    let character = |&symbol: &u32| match symbol {
        ANY_RUN | ANY_ONE => 'x',
        other => char::from_u32(other).expect("a character"),
    };
    spelled(&symbols.iter().map(character).collect::<String>())
}
