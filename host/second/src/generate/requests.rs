//! Planning records that match a policy, or only just fail to.

use super::plan::*;
use super::random::Random;
use super::stock::*;
use crate::limits::{CONTEXT_ENTRIES, ENTRY_CHARACTERS, KEY_CHARACTERS};

/// A record made to match some statement, then often changed a little. It has
/// the layout and keeps every limit.
pub fn record(policy: &PlannedPolicy, random: &mut Random) -> PlannedRecord {
    // Half of all records go to one statement, so that its rows fill up.
    let statement = match random.chance(1, 2) {
        true => &policy.statements[0],
        false => random.pick(&policy.statements),
    };
    let action = match random.pick(&statement.actions) {
        PlannedEntry::Text(pieces) => action_like(pieces, random),
        PlannedEntry::Number(_) => "s3:Get".to_owned(),
    };
    let mut record = PlannedRecord {
        action,
        resource: resource_like(random.pick(&statement.resources), random),
        context: Vec::new(),
    };
    for list in statement.lists().iter().filter(|list| !list.key.is_empty()) {
        let value = value_like(random.pick(list.entries), random);
        let key = any_case(list.key, random);
        add(&mut record.context, key, value);
    }
    if random.chance(1, 2) {
        disturb(&mut record, random);
    }
    random.shuffle(&mut record.context);
    record
}

/// Takes a record over one limit, or just up to it.
pub fn bring_to_a_limit(record: &mut PlannedRecord, random: &mut Random) {
    let over = random.below(2);
    match random.below(5) {
        0 => lengthen(&mut record.action, 'G', ENTRY_CHARACTERS + over),
        1 => {
            let resource = record.resource.get_or_insert_with(|| "arn:::::".to_owned());
            if resource != "*" {
                lengthen(resource, 'é', ENTRY_CHARACTERS + over);
            }
        }
        2 => {
            let mut text = String::new();
            lengthen(&mut text, '語', ENTRY_CHARACTERS + over);
            record.context = vec![("k".to_owned(), PlannedValue::Text(text))];
        }
        3 => {
            let mut key = String::new();
            lengthen(&mut key, 'k', KEY_CHARACTERS + over);
            record.context = vec![(key, PlannedValue::Number(0))];
        }
        _ => {
            let entry = |number: usize| (format!("k{number}"), value(random));
            record.context = (0..CONTEXT_ENTRIES + over).map(entry).collect();
        }
    }
}

fn lengthen(text: &mut String, filling: char, length: usize) {
    let more = length.saturating_sub(text.chars().count());
    text.extend(std::iter::repeat_n(filling, more));
}

/// Adds a context entry unless its key is there already.
fn add(context: &mut Vec<(String, PlannedValue)>, key: String, value: PlannedValue) {
    if !context
        .iter()
        .any(|(known, _)| known.eq_ignore_ascii_case(&key))
    {
        context.push((key, value));
    }
}

fn action_like(pieces: &[Piece], random: &mut Random) -> String {
    if pieces == [Piece::Star] {
        return format!("{}:{}", random.word(&VENDORS), random.word(&NAMES));
    }
    let mut action = filled(pieces, &NAME_CHARACTERS, &NAME_RUNS, random);
    if action.ends_with(':') {
        action.push('G');
    }
    action
}

fn resource_like(entry: &PlannedEntry, random: &mut Random) -> Option<String> {
    let PlannedEntry::Text(pieces) = entry else {
        return None;
    };
    if pieces != &[Piece::Star] {
        return Some(filled(pieces, &CHARACTERS, &RUNS, random));
    }
    match random.below(6) {
        0 => None,
        1 => Some("*".to_owned()),
        _ => Some(format!("{}{}", random.word(&ARNS), short_text(random))),
    }
}

fn value_like(entry: &PlannedEntry, random: &mut Random) -> PlannedValue {
    match entry {
        PlannedEntry::Text(pieces) => {
            PlannedValue::Text(filled(pieces, &CHARACTERS, &RUNS, random))
        }
        PlannedEntry::Number(bound) => {
            let below = *random.pick(&[0, 0, 1, 3, *bound]);
            PlannedValue::Number(bound.saturating_sub(below))
        }
    }
}

/// A text that the pieces match, no longer than a record's texts may be.
fn filled(pieces: &[Piece], stock: &[char], runs: &[&'static str], random: &mut Random) -> String {
    let needed = pieces.iter().filter(|piece| **piece != Piece::Star).count();
    let mut spare = ENTRY_CHARACTERS.saturating_sub(needed);
    let mut text = String::new();
    for piece in pieces {
        match piece {
            Piece::Plain(character) => text.push(*character),
            Piece::One => text.push(*random.pick(stock)),
            Piece::Star => {
                let run: String = any_run(stock, runs, spare, random)
                    .chars()
                    .take(spare)
                    .collect();
                spare -= run.chars().count();
                text.push_str(&run);
            }
        }
    }
    text
}

/// What a star stands for: mostly a common run, rarely all that is left.
fn any_run(stock: &[char], runs: &[&'static str], spare: usize, random: &mut Random) -> String {
    if random.chance(4, 5) {
        return random.word(runs).to_owned();
    }
    let length = if random.chance(1, 40) {
        spare
    } else {
        random.below(4)
    };
    (0..length).map(|_| *random.pick(stock)).collect()
}

/// One change after which the record may no longer match.
fn disturb(record: &mut PlannedRecord, random: &mut Random) {
    match random.below(7) {
        0 => record.action.push('e'),
        1 => record.action = format!("{}:{}", random.word(&VENDORS), random.word(&NAMES)),
        2 => record.resource = Some(format!("{}{}", random.word(&ARNS), short_text(random))),
        3 => drop(record.context.pop()),
        4 => add(
            &mut record.context,
            any_case(random.word(&KEYS), random),
            value(random),
        ),
        _ => {
            let another = value(random);
            if let Some((_, value)) = record.context.last_mut() {
                *value = another;
            }
        }
    }
    record.action.truncate(ENTRY_CHARACTERS);
}

fn value(random: &mut Random) -> PlannedValue {
    match random.chance(1, 2) {
        true => PlannedValue::Text(any_text(random)),
        false => PlannedValue::Number(number(random)),
    }
}
