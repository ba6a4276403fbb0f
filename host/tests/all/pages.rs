//! Pages for people, held to what the package says.

use muckposy::Reason;
use std::collections::{BTreeMap, BTreeSet};
use std::fs;
use std::path::Path;

fn read(name: &str) -> String {
    let path = Path::new(env!("CARGO_MANIFEST_DIR")).join(name);
    fs::read_to_string(&path).unwrap_or_else(|error| panic!("{}: {error}", path.display()))
}

const OPERATIONS: [&str; 6] = ["decide", "feed", "join", "finish", "restate", "fresh"];

/// The cells of a table's row, behind what its line begins with.
fn cells<'a>(line: &'a str, begin: &str) -> Option<Vec<&'a str>> {
    let row = line.trim_start().strip_prefix(begin)?;
    let row = row.strip_prefix("| ")?.strip_suffix(" |")?;
    Some(row.split(" | ").collect())
}

/// The rows that begin with a number.
fn numbered<'a>(text: &'a str, begin: &str) -> Vec<Vec<&'a str>> {
    let rows = text.lines().filter_map(|line| cells(line, begin));
    rows.filter(|row| row[0].parse::<u32>().is_ok()).collect()
}

/// The page has a row for each reason, in its words, and no other row.
#[test]
fn the_page_of_refusals() {
    let page = read("../docs/REFUSALS.md");
    let reason = |reason: &Reason| {
        let number = reason.number().to_string();
        let words = [reason.meaning(), reason.usual_cause()];
        (number, words)
    };
    let said: Vec<_> = Reason::ALL.iter().map(reason).collect();
    let rows: Vec<_> = numbered(&page, "")
        .into_iter()
        .map(|row| match row[..] {
            [number, meaning, cause] => (number.to_string(), [meaning, cause]),
            _ => panic!("a row of three cells: {row:?}"),
        })
        .collect();
    assert_eq!(rows, said);
}

/// The table of the crate's documentation has the same numbers, names and
/// meanings, and says which operations meet them as these do themselves.
#[test]
fn the_table_of_the_documentation() {
    let (page, operations) = (read("src/lib.rs"), read("src/operations.rs"));
    let met = refused_by(&operations);
    let rows = numbered(&page, "//! ");
    assert_eq!(rows.len(), Reason::ALL.len());
    for (row, reason) in rows.iter().zip(Reason::ALL) {
        let number = reason.number();
        let name = format!("[`{reason:?}`]");
        let said = [&number.to_string(), name.as_str(), reason.meaning()];
        assert_eq!(row[..3], said);
        let named = |name: &&str| row[3].contains(&format!("[`{name}`]"));
        let but = row[3].starts_with("all but ");
        let told = OPERATIONS.into_iter().filter(|name| named(name) != but);
        let meets = |name: &&str| met[name].contains(&number);
        let meet = OPERATIONS.into_iter().filter(meets);
        assert!(told.eq(meet), "{number}: {}", row[3]);
    }
}

/// The page's table of operations says what these say themselves.
#[test]
fn the_page_says_who_meets_them() {
    let (page, operations) = (read("../docs/REFUSALS.md"), read("src/operations.rs"));
    let met = refused_by(&operations);
    let rows: BTreeMap<String, Vec<&str>> = page
        .lines()
        .filter_map(|line| cells(line, ""))
        .map(|row| (row[0].to_lowercase(), row))
        .collect();
    for name in OPERATIONS {
        let numbers = rows[name][1].split(';').next().unwrap_or_default();
        let told: BTreeSet<u32> = numbers.split(", ").flat_map(str::parse).collect();
        assert_eq!(told, met[name], "{name}");
    }
}

/// An output of one's own is never too short, nor a room of another length; all
/// else is refused alike.
#[test]
fn what_has_its_own_is_refused_alike() {
    let (operations, room) = (read("src/operations.rs"), read("src/room.rs"));
    let (met, by_room) = (refused_by(&operations), refused_by(&room));
    let without = |name: &str, reason: Reason| {
        let mut numbers = met[name].clone();
        assert!(numbers.remove(&reason.number()), "{name}");
        numbers
    };
    for (name, from) in [("finish_to_vec", "finish"), ("restate_to_vec", "restate")] {
        assert_eq!(met[name], without(from, Reason::OutputTooShort), "{name}");
    }
    for (name, from) in [
        ("feed", "feed"),
        ("join", "join"),
        ("finish", "finish_to_vec"),
    ] {
        assert_eq!(by_room[name], without(from, Reason::RoomLength), "{name}");
    }
}

/// For each function the numbers in the table of its Errors.
fn refused_by(source: &str) -> BTreeMap<&str, BTreeSet<u32>> {
    let (mut found, mut numbers) = (BTreeMap::new(), BTreeSet::new());
    for line in source.lines() {
        if let Some(row) = cells(line, "/// ") {
            let listed = row[0]
                .split(", ")
                .filter_map(|number| number.parse::<u32>().ok());
            numbers.extend(listed);
        } else if let Some(rest) = line.trim_start().strip_prefix("pub fn ") {
            let name = rest.split('(').next().expect("a function's name");
            found.insert(name, std::mem::take(&mut numbers));
        }
    }
    found
}

/// The first version of the list of changes is the package's.
#[test]
fn the_changelog_begins_with_this_version() {
    let page = read("../CHANGELOG.md");
    let first = page.lines().find_map(|line| line.strip_prefix("## "));
    let first = first.and_then(|heading| heading.split_whitespace().next());
    assert_eq!(first, Some(env!("CARGO_PKG_VERSION")));
}
