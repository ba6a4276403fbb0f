//! Spelling plans as JSON in one of the many ways that read alike.

use super::plan::*;
use super::random::Random;
use crate::limits::{POLICY_BYTES, RECORD_BYTES};

/// A policy text of at most 16,384 bytes, unless even the tersest spelling is
/// longer.
pub fn policy(plan: &PlannedPolicy, random: &mut Random) -> Vec<u8> {
    let free = Speller { terse: false }.policy(plan, random);
    if free.len() <= POLICY_BYTES {
        return free.into_bytes();
    }
    Speller { terse: true }.policy(plan, random).into_bytes()
}

/// A record of at most 8,192 bytes, under the same reserve.
pub fn record(plan: &PlannedRecord, random: &mut Random) -> Vec<u8> {
    let free = Speller { terse: false }.record(plan, random);
    if free.len() <= RECORD_BYTES {
        return free.into_bytes();
    }
    Speller { terse: true }.record(plan, random).into_bytes()
}

struct Speller {
    /// No spaces and no escapes that are not needed.
    terse: bool,
}

impl Speller {
    fn policy(&self, plan: &PlannedPolicy, random: &mut Random) -> String {
        let statements = plan
            .statements
            .iter()
            .map(|s| self.statement(s, random))
            .collect();
        let members = vec![
            ("Version", self.string("2012-10-17", random)),
            ("Statement", self.one_or_list(statements, random)),
        ];
        let space = self.space(random);
        format!("{space}{}{space}", self.shuffled(members, random))
    }

    fn statement(&self, plan: &PlannedStatement, random: &mut Random) -> String {
        let effect = if plan.allow { "Allow" } else { "Deny" };
        let mut members = vec![
            ("Effect", self.string(effect, random)),
            ("Action", self.entries(&plan.actions, Spot::Action, random)),
            (
                "Resource",
                self.entries(&plan.resources, Spot::Resource, random),
            ),
        ];
        if let Some(sid) = &plan.sid {
            members.push(("Sid", self.string(sid, random)));
        }
        if !plan.condition.is_empty() {
            members.push(("Condition", self.condition(&plan.condition, random)));
        }
        self.shuffled(members, random)
    }

    fn condition(&self, condition: &[(Test, Vec<PlannedRow>)], random: &mut Random) -> String {
        let mut operators = Vec::new();
        for (test, rows) in condition {
            let spot = Spot::Under(*test);
            let mut members = Vec::new();
            for row in rows {
                members.push((row.key.as_str(), self.entries(&row.entries, spot, random)));
            }
            operators.push((test.name(), self.object(members, random)));
        }
        self.object(operators, random)
    }

    fn entries(&self, entries: &[PlannedEntry], spot: Spot, random: &mut Random) -> String {
        let spelled = entries.iter().map(|entry| match entry {
            PlannedEntry::Number(number) if random.chance(1, 2) => number.to_string(),
            PlannedEntry::Number(number) => self.string(&number.to_string(), random),
            PlannedEntry::Text(pieces) => self.string(&spell_pattern(pieces, spot, random), random),
        });
        let spelled = spelled.collect();
        self.one_or_list(spelled, random)
    }

    fn record(&self, plan: &PlannedRecord, random: &mut Random) -> String {
        let only = |text: &str, random: &mut Random| {
            let string = self.string(text, random);
            self.list(vec![string], random)
        };
        let mut members = vec![("ActionNames", only(&plan.action, random))];
        if let Some(resource) = &plan.resource {
            members.push(("ResourceArns", only(resource, random)));
        }
        if !plan.context.is_empty() || random.chance(1, 2) {
            let mut entries = Vec::new();
            for (key, value) in &plan.context {
                let (kind, text) = match value {
                    PlannedValue::Text(text) => ("string", text.clone()),
                    PlannedValue::Number(number) => ("numeric", number.to_string()),
                };
                let parts = vec![
                    ("ContextKeyName", self.string(key, random)),
                    ("ContextKeyType", self.string(kind, random)),
                    ("ContextKeyValues", only(&text, random)),
                ];
                entries.push(self.shuffled(parts, random));
            }
            members.push(("ContextEntries", self.list(entries, random)));
        }
        self.shuffled(members, random)
    }

    fn one_or_list(&self, mut items: Vec<String>, random: &mut Random) -> String {
        if items.len() == 1 && random.chance(1, 2) {
            return items.remove(0);
        }
        self.list(items, random)
    }

    fn list(&self, items: Vec<String>, random: &mut Random) -> String {
        let mut spelled = String::from("[");
        for (index, item) in items.iter().enumerate() {
            let comma = if index > 0 { "," } else { "" };
            spelled += &format!("{comma}{}{item}{}", self.space(random), self.space(random));
        }
        spelled + "]"
    }

    fn shuffled(&self, mut members: Vec<(&str, String)>, random: &mut Random) -> String {
        random.shuffle(&mut members);
        self.object(members, random)
    }

    fn object(&self, members: Vec<(&str, String)>, random: &mut Random) -> String {
        let mut spelled = String::from("{");
        for (index, (name, value)) in members.iter().enumerate() {
            let comma = if index > 0 { "," } else { "" };
            let name = self.string(name, random);
            let [before, inside, behind] = [(); 3].map(|()| self.space(random));
            spelled += &format!("{comma}{before}{name}{inside}:{inside}{value}{behind}");
        }
        spelled + "}"
    }

    fn space(&self, random: &mut Random) -> &'static str {
        let spaces = ["", "", "", "", " ", "\n\t", "\r"];
        spaces[if self.terse { 0 } else { random.below(7) }]
    }

    fn string(&self, text: &str, random: &mut Random) -> String {
        // Most strings need no escapes; some use one wherever they can.
        let escaped_of_8 = if self.terse {
            0
        } else {
            *random.pick(&[0, 0, 0, 1, 8])
        };
        let mut spelled = String::from("\"");
        for character in text.chars() {
            if random.chance(escaped_of_8, 8) {
                spelled += &escape(character, random);
            } else {
                spelled += &terse_character(character);
            }
        }
        spelled + "\""
    }
}

/// Any escape that means the character.
fn escape(character: char, random: &mut Random) -> String {
    let short = match character {
        '\u{8}' => "\\b",
        '\t' => "\\t",
        '\n' => "\\n",
        '\u{c}' => "\\f",
        '\r' => "\\r",
        '"' => "\\\"",
        '\\' => "\\\\",
        '/' => "\\/",
        _ => "",
    };
    if !short.is_empty() && random.chance(1, 2) {
        return short.to_owned();
    }
    let mut units = [0; 2];
    let units = character.encode_utf16(&mut units).iter();
    let upper = random.chance(1, 2);
    units
        .map(|unit| {
            if upper {
                format!("\\u{unit:04X}")
            } else {
                format!("\\u{unit:04x}")
            }
        })
        .collect()
}

fn terse_character(character: char) -> String {
    match character {
        '"' => "\\\"".to_owned(),
        '\\' => "\\\\".to_owned(),
        '\0'..='\u{1f}' => format!("\\u{:04x}", character as u32),
        _ => character.to_string(),
    }
}

/// The text of an entry before JSON spells it: wildcards bare, plain specials
/// by the three escapes where they must be, and now and then where they need
/// not be.
fn spell_pattern(pieces: &[Piece], spot: Spot, random: &mut Random) -> String {
    let mut spelled = String::new();
    for (index, piece) in pieces.iter().enumerate() {
        let needless = random.chance(1, 3);
        let brace_follows = pieces.get(index + 1) == Some(&Piece::Plain('{'));
        match piece {
            Piece::Star => spelled.push('*'),
            Piece::One => spelled.push('?'),
            Piece::Plain(special @ ('*' | '?')) => {
                let needed = spot != Spot::Under(Test::Equals);
                push_special(*special, needed || needless, &mut spelled);
            }
            Piece::Plain('$') => push_special('$', brace_follows || needless, &mut spelled),
            Piece::Plain(character) => spelled.push(*character),
        }
    }
    spelled
}

fn push_special(special: char, escaped: bool, spelled: &mut String) {
    if escaped {
        *spelled += &format!("${{{special}}}");
    } else {
        spelled.push(special);
    }
}
