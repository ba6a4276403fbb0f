//! Joins of single rows by hand, and lists of which some entries are empty.

use crate::encoding::Content::{self, Empty, Itself, Number};
use crate::encoding::ROW;
use crate::subject::{refused, Subject};
use crate::texts::*;
use crate::{ensure, same, Check};

/// The largest number of a condition.
const MOST: u64 = (1 << 53) - 1;

/// Rows 2 to 4 are of texts, row 5 of numbers.
fn policy_of_rows() -> String {
    with_condition(
        r#"{"StringLike":{"k":["*","a*","a?*"]},"NumericLessThanEquals":{"n":["9007199254740991"]}}"#,
    )
}

/// A row, two contents, and what both come to.
type Join = (usize, Content, Content, Content);

fn texts() -> [Join; 14] {
    let (single, beginning) = (Content::single, Content::beginning);
    [
        (2, Empty, Empty, Empty),
        (2, single("a"), Empty, single("a")),
        (2, single("a"), single("a"), single("a")),
        (2, single("a"), single("b"), Itself),
        (2, single("ab"), single("ac"), beginning("a")),
        (2, single("ab"), beginning("ab"), beginning("ab")),
        (2, single("a"), beginning("ab"), beginning("a")),
        (2, beginning("a"), beginning("ab"), beginning("a")),
        (2, beginning("é1"), beginning("è1"), Itself),
        (2, Itself, beginning("ab"), Itself),
        (2, Itself, Empty, Itself),
        (3, single("a"), single("ab"), Itself),
        (3, beginning("abc"), single("abd"), beginning("ab")),
        (4, single("ab1"), single("ab2"), Itself),
    ]
}

fn numbers() -> [Join; 5] {
    const HALF: u64 = 1 << 32;
    let larger = |one: u64, other: u64| (5, Number(one), Number(other), Number(one));
    [
        larger(50, 7),
        larger(HALF, HALF - 1),
        larger(2 * HALF + 1, HALF + 9),
        larger(MOST, MOST - 1),
        (5, Number(0), Empty, Number(0)),
    ]
}

/// Two rooms that hold something in the same row, both ways round.
pub fn by_hand(subject: &Subject) -> Check {
    for (row, one, other, expected) in texts().iter().chain(&numbers()) {
        let expected = subject.room_with(*row, expected);
        for (one, other) in [(one, other), (other, one)] {
            let name = format!("{one:?} with {other:?}");
            let [one, other] = [one, other].map(|content| subject.room_with(*row, content));
            joins(subject, one, &other, &expected, &name)?;
        }
    }
    Ok(())
}

fn joins(
    subject: &Subject,
    mut room: Vec<u32>,
    other: &[u32],
    expected: &[u32],
    name: &str,
) -> Check {
    let lent = other.to_vec();
    let policy = policy_of_rows();
    let answer = subject
        .implementation
        .join(policy.as_bytes(), &mut room, &lent);
    same(answer, Ok(()), name)?;
    let filled = |room: &[u32]| {
        subject
            .encoding
            .contents(room)
            .map(|rows| rows[2..6].to_vec())
    };
    same(filled(&room), filled(expected), name)?;
    let kept = room == expected && lent == other;
    ensure(kept, || format!("{name}: another number changed"))
}

/// Finish drops entries that are empty, and statements of which a list is.
pub fn half_empty_lists(subject: &Subject) -> Check {
    let policy = with_action(r#"["a:*","b:*"]"#);
    let mut room = subject.room_with(1, &Itself);
    let found = subject.finished(policy.as_bytes(), &room)?;
    same(found, Err(refused(10)), "an empty list")?;
    let resource = 2 * ROW..3 * ROW;
    room[resource].copy_from_slice(&subject.encoding.row(&Itself));
    let found = subject.finished(policy.as_bytes(), &room)?;
    let expected = statements(&[statement(r#"["b:*"]"#, r#"["*"]"#)]);
    same(found, Ok(expected.into_bytes()), "half a list")
}
