//! Planning policies with every feature, some of them at a limit.

use super::plan::*;
use super::random::Random;
use super::stock::*;
use crate::limits::{CONDITION_ROWS, ENTRIES, ENTRY_CHARACTERS, KEY_CHARACTERS, STATEMENTS};

/// A policy that has the layout and keeps every limit.
pub fn policy(random: &mut Random) -> PlannedPolicy {
    let most = *random.pick(&[1, 1, 2, 2, 3, 4, 16]);
    let count = random.between(1, most);
    let mut statements = Vec::new();
    let mut left = ENTRIES;
    for number in 0..count {
        // Each statement still to come needs an action and a resource.
        let spare = left - 2 * (count - number);
        let statement = statement(number, spare, random);
        left -= statement
            .lists()
            .iter()
            .map(|l| l.entries.len())
            .sum::<usize>();
        statements.push(statement);
    }
    let mut policy = PlannedPolicy { statements };
    enlarge(&mut policy, random);
    policy
}

/// A statement with at most `spare` entries more than it needs.
fn statement(number: usize, mut spare: usize, random: &mut Random) -> PlannedStatement {
    let allow = !random.chance(1, 4);
    let actions = some(&mut spare, random, action_pattern);
    let resources = some(&mut spare, random, resource_pattern);
    let mut condition = Vec::new();
    if random.chance(1, 2) {
        let mut tests = [Test::Equals, Test::Like, Test::AtMost];
        random.shuffle(&mut tests);
        for test in tests.into_iter().take(random.between(1, 3)) {
            let rows = rows(test, &mut spare, random);
            if !rows.is_empty() {
                condition.push((test, rows));
            }
        }
    }
    PlannedStatement {
        sid: random.chance(1, 3).then(|| sid(number, random)),
        allow,
        actions,
        resources,
        condition,
    }
}

fn sid(number: usize, random: &mut Random) -> String {
    let length = *random.pick(&[0, 3, 58]);
    format!("S{number}{}", "x".repeat(length))
}

/// Rows with different keys, two at most of each operator.
fn rows(test: Test, spare: &mut usize, random: &mut Random) -> Vec<PlannedRow> {
    let mut keys = KEYS;
    random.shuffle(&mut keys);
    let mut rows = Vec::new();
    for key in keys.into_iter().take(random.between(1, 2)) {
        if *spare == 0 {
            break;
        }
        *spare -= 1;
        let entries = some(spare, random, |random| match test {
            Test::Equals => PlannedEntry::Text(plain(&any_text(random))),
            Test::Like => PlannedEntry::Text(pattern(&short_text(random), random)),
            Test::AtMost => PlannedEntry::Number(number(random)),
        });
        let key = any_case(key, random);
        rows.push(PlannedRow { key, entries });
    }
    rows
}

/// At least one, mostly few, and at most one more than are spare.
fn some(
    spare: &mut usize,
    random: &mut Random,
    make: impl Fn(&mut Random) -> PlannedEntry,
) -> Vec<PlannedEntry> {
    let wanted = *random.pick(&[0, 0, 0, 1, 1, 2, 3]);
    let more = wanted.min(*spare);
    *spare -= more;
    (0..=more).map(|_| make(random)).collect()
}

fn action_pattern(random: &mut Random) -> PlannedEntry {
    if random.chance(1, 6) {
        return PlannedEntry::Text(vec![Piece::Star]);
    }
    let mut pieces = plain(&format!("{}:", random.word(&VENDORS)));
    let name = random.word(&NAMES);
    let mut name = match random.chance(1, 2) {
        true => pattern(name, random),
        false => plain(name),
    };
    if name.is_empty() {
        name.push(Piece::Star);
    }
    pieces.append(&mut name);
    PlannedEntry::Text(pieces)
}

fn resource_pattern(random: &mut Random) -> PlannedEntry {
    if random.chance(1, 6) {
        return PlannedEntry::Text(vec![Piece::Star]);
    }
    let mut pieces = plain(random.word(&ARNS));
    pieces.append(&mut pattern(&short_text(random), random));
    PlannedEntry::Text(pieces)
}

/// Brings some entries near the limit of characters: hardly any in most
/// policies, and in a few so many that the policy is too long to be written.
fn enlarge(policy: &mut PlannedPolicy, random: &mut Random) {
    let of_60 = if random.chance(1, 15) { 40 } else { 1 };
    for statement in &mut policy.statements {
        let actions = statement.actions.iter_mut().map(|entry| (entry, 'G'));
        let resources = statement.resources.iter_mut().map(|entry| (entry, 'é'));
        let rows = statement.condition.iter_mut().flat_map(|(_, rows)| rows);
        let values = rows
            .flat_map(|row| &mut row.entries)
            .map(|entry| (entry, '語'));
        for (entry, filling) in actions.chain(resources).chain(values) {
            if random.chance(of_60, 60) {
                let length = random.between(ENTRY_CHARACTERS - 3, ENTRY_CHARACTERS);
                lengthen(entry, filling, length);
            }
        }
    }
}

/// Lengthens a text entry, its last piece staying last. The lone star stays
/// as it is: no other Action or Resource begins with one.
fn lengthen(entry: &mut PlannedEntry, filling: char, length: usize) {
    match entry {
        PlannedEntry::Text(pieces) if *pieces != [Piece::Star] => {
            let last = pieces.pop().unwrap_or(Piece::Plain(filling));
            pieces.resize(length - 1, Piece::Plain(filling));
            pieces.push(last);
        }
        _ => {}
    }
}

/// Takes a policy over one limit, or just up to it.
pub fn bring_to_a_limit(policy: &mut PlannedPolicy, random: &mut Random) {
    let over = random.below(2);
    let statement = random.below(policy.statements.len());
    let copy = PlannedStatement {
        sid: None,
        ..policy.statements[statement].clone()
    };
    let entries: usize = policy.lists().map(|list| list.entries.len()).sum();
    let chosen = &mut policy.statements[statement];
    match random.below(5) {
        0 => policy.statements.resize(STATEMENTS + over, copy),
        1 => {
            let first = chosen.actions[0].clone();
            let more = (ENTRIES + over).saturating_sub(entries);
            chosen.actions.extend(std::iter::repeat_n(first, more));
        }
        2 => chosen.condition = vec![(Test::AtMost, numbered_rows(CONDITION_ROWS + over))],
        3 => lengthen(&mut chosen.resources[0], '?', ENTRY_CHARACTERS + over),
        _ => {
            let mut rows = numbered_rows(1);
            rows[0].key = "k".repeat(KEY_CHARACTERS + over);
            chosen.condition = vec![(Test::AtMost, rows)];
        }
    }
}

fn numbered_rows(count: usize) -> Vec<PlannedRow> {
    let row = |number: usize| PlannedRow {
        key: format!("k{number}"),
        entries: vec![PlannedEntry::Number(number as u64)],
    };
    (0..count).map(row).collect()
}

/// A text some of whose characters became wildcards, often the last ones.
fn pattern(text: &str, random: &mut Random) -> Pattern {
    let mut pieces = plain(text);
    match random.below(8) {
        0 => {}
        1..=4 => {
            pieces.truncate(random.below(pieces.len() + 1));
            pieces.push(Piece::Star);
        }
        5 => pieces.extend([Piece::Star, Piece::Star]),
        _ => {
            for piece in &mut pieces {
                let wild = *random.pick(&[Piece::Star, Piece::One, *piece, *piece, *piece]);
                *piece = wild;
            }
        }
    }
    pieces
}
