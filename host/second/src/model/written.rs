//! The written form, piece by piece.

use crate::generate::plan::*;

pub fn written_policy(statements: &[String]) -> String {
    let statements = statements.join(",");
    format!("{{\"Version\":\"2012-10-17\",\"Statement\":[{statements}]}}")
}

/// A statement with these entries in its lists.
pub fn written_statement(statement: &PlannedStatement, entries: &[Vec<PlannedEntry>]) -> String {
    let lists = statement.lists();
    let written: Vec<String> = lists
        .iter()
        .zip(entries)
        .map(|(l, e)| written_list(l.spot, e))
        .collect();
    let sid = statement
        .sid
        .as_ref()
        .map(|sid| format!("\"Sid\":\"{sid}\","));
    let effect = if statement.allow { "Allow" } else { "Deny" };
    let mut rows = written[2..].iter();
    let operators = statement.condition.iter().map(|(test, planned)| {
        let rows = planned.iter().zip(rows.by_ref());
        let rows = rows.map(|(row, list)| format!("\"{}\":{list}", row.key));
        format!(
            "\"{}\":{{{}}}",
            test.name(),
            rows.collect::<Vec<_>>().join(",")
        )
    });
    let operators = operators.collect::<Vec<_>>().join(",");
    let condition = match operators.is_empty() {
        true => String::new(),
        false => format!(",\"Condition\":{{{operators}}}"),
    };
    format!(
        "{{{}\"Effect\":\"{effect}\",\"Action\":{},\"Resource\":{}{condition}}}",
        sid.unwrap_or_default(),
        written[0],
        written[1],
    )
}

fn written_list(spot: Spot, entries: &[PlannedEntry]) -> String {
    let written = entries.iter().map(|entry| match entry {
        PlannedEntry::Number(number) => format!("\"{number}\""),
        PlannedEntry::Text(pieces) => {
            let pieces = pieces.iter().map(|piece| written_piece(spot, *piece));
            format!("\"{}\"", pieces.collect::<String>())
        }
    });
    format!("[{}]", written.collect::<Vec<_>>().join(","))
}

fn written_piece(spot: Spot, piece: Piece) -> String {
    match piece {
        Piece::Star => "*".to_owned(),
        Piece::One => "?".to_owned(),
        Piece::Plain('$') => "${$}".to_owned(),
        Piece::Plain(c @ ('*' | '?')) if spot != Spot::Under(Test::Equals) => format!("${{{c}}}"),
        Piece::Plain(c @ ('"' | '\\')) => format!("\\{c}"),
        Piece::Plain(c @ ' '..='~') => c.to_string(),
        Piece::Plain(c) => {
            let mut units = [0; 2];
            let units = c.encode_utf16(&mut units).iter();
            units.map(|unit| format!("\\u{unit:04x}")).collect()
        }
    }
}
