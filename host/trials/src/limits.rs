//! Lengths on both sides of their limits, and beginnings that are counted in
//! characters.

use crate::encoding::Content;
use crate::subject::{refused, Subject, RESULT, ROOM};
use crate::texts::*;
use crate::{ensure, same, Check};
use second::Refusal;

/// The most characters of an entry and of a record's texts.
const CHARACTERS: usize = 254;

/// Characters as they stand in a text, and as they are written.
const SPELLINGS: [(&str, &str); 5] = [
    ("x", "x"),
    (r"\u0078", "x"),
    ("é", r"\u00e9"),
    ("𝄞", r"\ud834\udd1e"),
    (r"\uD834\uDD1E", r"\ud834\udd1e"),
];

/// Policies of 16,384 bytes are read and longer ones refused by 2, records of
/// 8,192 bytes read and longer ones refused by 7.
pub fn bytes(subject: &Subject) -> Check {
    let (good, asked) = (statements(&[ALLOW.to_owned()]), record(""));
    for (length, refusal) in [(16_384, None), (16_385, Some(2)), (20_000, Some(2))] {
        let refusal = refusal.map(refused);
        let found = under(subject, padded(&good, length).as_bytes());
        same(found, [refusal; 5], &format!("a policy of {length}"))?;
        // Where a text is too long, it is not looked at.
        let broken = refusal.unwrap_or(breaks(3, length));
        let found = under(subject, padded("{", length).as_bytes());
        same(
            found,
            [Some(broken); 5],
            &format!("a broken policy of {length}"),
        )?;
    }
    for (length, refusal) in [(8_192, None), (8_193, Some(7)), (20_000, Some(7))] {
        let refusal = refusal.map(refused);
        let found = by(subject, good.as_bytes(), padded(&asked, length).as_bytes());
        same(found, [refusal; 2], &format!("a record of {length}"))?;
        let broken = refusal.unwrap_or(breaks(8, length));
        let found = by(subject, good.as_bytes(), padded("[", length).as_bytes());
        same(
            found,
            [Some(broken); 2],
            &format!("a broken record of {length}"),
        )?;
    }
    Ok(())
}

fn breaks(number: u32, place: usize) -> Refusal {
    Refusal { number, place }
}

/// The refusals of every operation that reads a policy, for a policy under
/// which a record of a:b is charged to two entries.
fn under(subject: &Subject, policy: &[u8]) -> [Option<Refusal>; 5] {
    let operations = subject.implementation;
    let [decided, fed] = by(subject, policy, record("").as_bytes());
    let mut room = vec![0; ROOM];
    (room[0], room[256]) = (1, 1);
    let mut output = [0; RESULT];
    [
        decided,
        fed,
        operations.join(policy, &mut vec![0; ROOM], &room).err(),
        operations.finish(policy, &room, &mut output).err(),
        operations.restate(policy, &mut output).err(),
    ]
}

/// The refusals of both operations that read a record.
fn by(subject: &Subject, policy: &[u8], record: &[u8]) -> [Option<Refusal>; 2] {
    let operations = subject.implementation;
    let mut room = vec![0; ROOM];
    [
        operations.decide(policy, record).err(),
        operations.feed(policy, record, &mut room).err(),
    ]
}

/// 254 characters, however they are spelled, are read in every place, and 255
/// are refused: by 5 in a policy, by 9 in a record.
pub fn characters(subject: &Subject) -> Check {
    for (spelling, _) in SPELLINGS {
        for (length, over) in [(CHARACTERS, false), (CHARACTERS + 1, true)] {
            let arn = format!("arn:::::{}", spelling.repeat(length - 8));
            let value = spelling.repeat(length);
            let in_policy = over.then(|| refused(5));
            for policy in [
                with_resource(&quoted(&arn)),
                with_row("StringLike", "k", &quoted(&value)),
                with_row("StringEquals", "k", &quoted(&value)),
                with_action(&quoted(&format!("a:{}*", "b".repeat(length - 3)))),
            ] {
                let [found, _] = by(subject, policy.as_bytes(), record("").as_bytes());
                same(found, in_policy, &policy)?;
            }
            let in_record = over.then(|| refused(9));
            for record in [
                asking("a:b", &arn),
                asking(&format!("a:{}", "b".repeat(length - 2)), "*"),
                with_context(&[context_entry("k", "string", &value)]),
            ] {
                let found = by(subject, policy(ALLOW).as_bytes(), record.as_bytes());
                same(found, [in_record; 2], &record)?;
            }
        }
    }
    Ok(())
}

/// Two texts of 254 characters that share 253 are held as these and a star,
/// which is 254 again; a text that is just the shared part changes nothing, and
/// neither does the order.
pub fn longest_beginning(subject: &Subject) -> Check {
    let policy = with_row("StringLike", "k", r#"["*"]"#);
    for (spelling, written) in SPELLINGS {
        let most = CHARACTERS - 1;
        let value = |last: &str| {
            let value = spelling.repeat(most) + last;
            with_context(&[context_entry("k", "string", &value)])
        };
        let expected = expected_row(&format!("{}*", written.repeat(most)));
        for records in [
            [value("1"), value("2")],
            [value("2"), value("1")],
            [value(""), value("1")],
            [value("1"), value("")],
        ] {
            let found = subject.refined(&policy, &records)?;
            same(
                found,
                Ok(expected.clone()),
                &format!("{most} of {spelling}"),
            )?;
        }
        let alone = expected_row(&format!("{}1", written.repeat(most)));
        let found = subject.refined(&policy, &[value("1")])?;
        same(found, Ok(alone), &format!("a text of {spelling}"))?;
    }
    Ok(())
}

/// The policy of one row as it is written with this entry.
fn expected_row(entry: &str) -> Vec<u8> {
    let statement = format!(
        r#"{{"Effect":"Allow","Action":["a:b"],"Resource":["*"],"Condition":{{"StringLike":{{"k":["{entry}"]}}}}}}"#
    );
    statements(&[statement]).into_bytes()
}

/// An entry of 253 characters and a star has no longer beginning: two texts
/// under it leave it as it is.
pub fn longest_entry(subject: &Subject) -> Check {
    let own = "x".repeat(CHARACTERS - 1);
    let policy = with_row("StringLike", "k", &quoted(&format!("{own}*")));
    let value = |last: &str| with_context(&[context_entry("k", "string", &format!("{own}{last}"))]);
    for (records, expected) in [
        (vec![value("1")], format!("{own}1")),
        (vec![value("")], own.clone()),
        (vec![value("1"), value("1")], format!("{own}1")),
        (vec![value("1"), value("2")], format!("{own}*")),
        (vec![value("1"), value("")], format!("{own}*")),
    ] {
        let found = subject.refined(&policy, &records)?;
        same(found, Ok(expected_row(&expected)), "the longest entry")?;
    }
    // 254 characters are a text but, with a star behind them, no beginning.
    let policy = with_row("StringLike", "k", r#"["*"]"#);
    let text = vec![u32::from('x'); CHARACTERS];
    for (content, number) in [
        (Content::Single(text.clone()), 0),
        (Content::Beginning(text[1..].to_vec()), 0),
        (Content::Beginning(text), 6),
    ] {
        let other = subject.room_with(2, &content);
        let mut room = vec![0; ROOM];
        let joined = subject
            .implementation
            .join(policy.as_bytes(), &mut room, &other);
        same(
            joined.map_or_else(|refusal| refusal.number, |()| 0),
            number,
            content.name(),
        )?;
    }
    Ok(())
}

/// Characters that begin with the same bytes, or the same half of a pair, are
/// different characters all the same.
pub fn shared_bytes(subject: &Subject) -> Check {
    for (one, other) in [
        ('é', 'è'),
        ('語', '誠'),
        ('𝄞', '𝄟'),
        ('\u{10FFFF}', '\u{10FFFE}'),
    ] {
        let pair = [one, other];
        let policy = with_row("StringLike", "k", r#"["n*"]"#);
        let values =
            pair.map(|c| with_context(&[context_entry("k", "string", &format!("nö{c}1"))]));
        let found = subject.refined(&policy, &values)?;
        same(found, Ok(expected_row(r"n\u00f6*")), &format!("{pair:?}"))?;
        let policy = with_resource(r#""arn:::::*""#);
        let texts = pair.map(|c| asking("a:b", &format!("arn:::::{c}")));
        let found = subject.refined(&policy, &texts)?;
        let expected = statements(&[statement(r#"["a:b"]"#, r#"["arn:::::*"]"#)]);
        ensure(found.as_deref() == Ok(expected.as_bytes()), || {
            format!("{pair:?}: {found:?}")
        })?;
    }
    // The same letter as one character and as two.
    let policy = with_row("StringLike", "k", r#"["n*"]"#);
    let values =
        ["né", "ne\u{301}"].map(|text| with_context(&[context_entry("k", "string", text)]));
    let found = subject.refined(&policy, &values)?;
    same(found, Ok(expected_row("n*")), "composed and decomposed")
}
