//! Every refusal alone and with all others of its operation: whatever troubles
//! a call has, the lowest number is given, and nothing that was lent changes.

use crate::subject::{refused, written, Subject, Write, RESULT, ROOM};
use crate::texts::*;
use crate::{ensure, same, Check};
use second::Refusal;

/// A set of refusals that a call is made to deserve.
#[derive(Clone, Copy)]
struct Troubles(u32);

impl Troubles {
    const NONE: Troubles = Troubles(0);

    fn has(self, number: u32) -> bool {
        self.0 >> number & 1 == 1
    }

    fn lowest(self) -> u32 {
        self.0.trailing_zeros()
    }

    fn without(self, number: u32) -> Troubles {
        Troubles(self.0 & !(1 << number))
    }

    /// All sets of these numbers but the empty one.
    fn all(numbers: &[u32]) -> impl Iterator<Item = Troubles> + '_ {
        (1..1_u32 << numbers.len()).map(|choice| {
            let chosen = (0..numbers.len()).filter(|index| choice >> index & 1 == 1);
            Troubles(chosen.fold(0, |set, index| set | 1 << numbers[index]))
        })
    }
}

/// A policy with these troubles: 11 by a Deny statement that is long when
/// written, 5 by a seventeenth statement, 4 by an unknown member, 3 by a cut, 2
/// by its length.
fn spoilt_policy(troubles: Troubles) -> Vec<u8> {
    let mut all = vec![ALLOW.to_owned()];
    if troubles.has(11) {
        let long = quoted(&format!("arn:::::{}", "é".repeat(240)));
        all.push(statement_to("Deny", r#""z:z""#, &list_of(&long, 6)));
    }
    if troubles.has(5) {
        all.resize(17, ALLOW.to_owned());
    }
    let mut text = statements(&all).into_bytes();
    if troubles.has(4) {
        text.splice(1..1, *br#""Id":"x","#);
    }
    if troubles.has(3) {
        text.pop();
    }
    if troubles.has(2) {
        text.resize(16_385, b' ');
    }
    text
}

/// A record with these troubles: 9 by an unknown member, 8 by a cut, 7 by its
/// length.
fn spoilt_record(troubles: Troubles) -> Vec<u8> {
    let mut text = record("").into_bytes();
    if troubles.has(9) {
        text.splice(1..1, *br#""x":1,"#);
    }
    if troubles.has(8) {
        text.pop();
    }
    if troubles.has(7) {
        text.resize(8_193, b' ');
    }
    text
}

/// A room with these troubles: 6 by a row that nothing has, 1 by its length.
fn spoilt_room(troubles: Troubles) -> Vec<u32> {
    let mut room = vec![0; ROOM];
    if troubles.has(6) {
        room[5 * 256] = 9;
    }
    if troubles.has(1) {
        room.pop();
    }
    room
}

/// An output with these troubles: 12 by its length.
fn output_length(troubles: Troubles) -> usize {
    if troubles.has(12) {
        0
    } else {
        20_000
    }
}

/// The refusal that troubles deserve. Texts break where they stop.
fn deserved(troubles: Troubles, policy: &[u8], record: &[u8]) -> Refusal {
    let number = troubles.lowest();
    let place = match number {
        3 => policy.len(),
        8 => record.len(),
        _ => 0,
    };
    Refusal { number, place }
}

pub fn decide(subject: &Subject) -> Check {
    for troubles in Troubles::all(&[2, 3, 4, 5, 7, 8, 9]) {
        let (policy, record) = (spoilt_policy(troubles), spoilt_record(troubles));
        let expected = deserved(troubles, &policy, &record);
        let found = subject.implementation.decide(&policy, &record);
        same(found, Err(expected), "decide")?;
    }
    Ok(())
}

pub fn feed(subject: &Subject) -> Check {
    for troubles in Troubles::all(&[1, 2, 3, 4, 5, 6, 7, 8, 9]) {
        let (policy, record) = (spoilt_policy(troubles), spoilt_record(troubles));
        let mut room = spoilt_room(troubles);
        let before = room.clone();
        let expected = deserved(troubles, &policy, &record);
        let found = subject.implementation.feed(&policy, &record, &mut room);
        same(found, Err(expected), "feed")?;
        ensure(room == before, || format!("the room changed by {expected}"))?;
    }
    Ok(())
}

/// Refusals 1 and 6 are tried in either room, in both, and one in each.
pub fn join(subject: &Subject) -> Check {
    for troubles in Troubles::all(&[1, 2, 3, 4, 5, 6]) {
        let policy = spoilt_policy(troubles);
        let expected = deserved(troubles, &policy, b"");
        for [one, other] in [
            [troubles, Troubles::NONE],
            [Troubles::NONE, troubles],
            [troubles, troubles],
            [troubles.without(1), troubles.without(6)],
            [troubles.without(6), troubles.without(1)],
        ] {
            let (mut room, other) = (spoilt_room(one), spoilt_room(other));
            let before = [room.clone(), other.clone()];
            let found = subject.implementation.join(&policy, &mut room, &other);
            same(found, Err(expected), "join")?;
            ensure([room, other] == before, || {
                format!("a room changed by {expected}")
            })?;
        }
    }
    Ok(())
}

pub fn finish(subject: &Subject) -> Check {
    for troubles in Troubles::all(&[1, 2, 3, 4, 5, 6, 10, 11, 12]) {
        let policy = spoilt_policy(troubles);
        let mut room = spoilt_room(troubles);
        if !troubles.has(10) {
            // Both entries of the first statement, as they are.
            (room[0], room[256]) = (1, 1);
        }
        let before = room.clone();
        let write: Write = &|output| subject.implementation.finish(&policy, &room, output);
        let found = written(write, output_length(troubles))?;
        same(found, Err(deserved(troubles, &policy, b"")), "finish")?;
        ensure(room == before, || "finish changed the room".to_owned())?;
    }
    Ok(())
}

pub fn restate(subject: &Subject) -> Check {
    for troubles in Troubles::all(&[2, 3, 4, 5, 11, 12]) {
        let policy = spoilt_policy(troubles);
        let write: Write = &|output| subject.implementation.restate(&policy, output);
        let found = written(write, output_length(troubles))?;
        same(found, Err(deserved(troubles, &policy, b"")), "restate")?;
    }
    Ok(())
}

/// Fresh empties what is a room, and touches nothing else.
pub fn fresh(subject: &Subject) -> Check {
    for length in [0, 1, ROOM - 1, ROOM + 1, 2 * ROOM] {
        let mut room = vec![7; length];
        let found = subject.implementation.fresh(&mut room);
        same(found, Err(refused(1)), "fresh")?;
        let kept = room.iter().all(|&number| number == 7);
        ensure(kept, || format!("fresh changed {length} numbers"))?;
    }
    for number in [0, 7, u32::MAX] {
        let mut room = vec![number; ROOM];
        same(subject.implementation.fresh(&mut room), Ok(()), "fresh")?;
        let empty = room.iter().all(|&number| number == 0);
        ensure(empty, || "fresh left something".to_owned())?;
    }
    Ok(())
}

/// 1 goes before everything else, for every length that is not a room's, in
/// every operation with a room, and in Join for each of the two.
pub fn room_lengths(subject: &Subject) -> Check {
    let operations = subject.implementation;
    let good = statements(&[ALLOW.to_owned()]).into_bytes();
    let asked = record("").into_bytes();
    for policy in [&good[..], b"{", b"", &[b' '; 20_000]] {
        for length in [0, 1, 256, ROOM - 1, ROOM + 1, 2 * ROOM] {
            let (mut wrong, mut right) = (vec![9; length], vec![0; ROOM]);
            let mut output = [9; RESULT];
            let answers = [
                operations.feed(policy, &asked, &mut wrong).err(),
                operations.join(policy, &mut wrong, &right).err(),
                operations.join(policy, &mut right, &wrong).err(),
                operations.join(policy, &mut wrong.clone(), &wrong).err(),
                operations.finish(policy, &wrong, &mut output).err(),
                operations.fresh(&mut wrong).err(),
            ];
            let name = format!("rooms of {length}");
            same(answers, [Some(refused(1)); 6], &name)?;
            let kept = wrong.iter().all(|&number| number == 9)
                && right.iter().all(|&number| number == 0)
                && output.iter().all(|&byte| byte == 9);
            ensure(kept, || format!("{name}: something changed"))?;
        }
    }
    Ok(())
}

/// Without any trouble the same texts and rooms are taken.
pub fn nothing_without_cause(subject: &Subject) -> Check {
    let operations = subject.implementation;
    let (policy, record) = (spoilt_policy(Troubles::NONE), spoilt_record(Troubles::NONE));
    let (mut room, other) = (spoilt_room(Troubles::NONE), spoilt_room(Troubles::NONE));
    let mut output = vec![0; 20_000];
    let answers = [
        operations.decide(&policy, &record).err(),
        operations.feed(&policy, &record, &mut room).err(),
        operations.join(&policy, &mut room, &other).err(),
        operations.finish(&policy, &room, &mut output).err(),
        operations.restate(&policy, &mut output).err(),
        operations.fresh(&mut room).err(),
    ];
    same(answers, [None; 6], "without trouble")
}
