//! Rooms of this implementation: which contents a policy's room can have, said
//! once more over plans.

use super::{ensure, show, Check};
use crate::generate::damage::damage_room;
use crate::generate::plan::{Pattern, Piece, PlannedEntry, PlannedPolicy, Spot};
use crate::generate::random::Random;
use crate::generate::sound_case;
use crate::limits::{ENTRY_CHARACTERS, POLICY_BYTES, ROOM_NUMBERS};
use crate::model::candidates::{final_star, is_legal};
use crate::model::pieces_match;
use crate::{feed, finish, join, Refusal};

/// Feeds a room, changes numbers in it, and sees whether it is refused by 6
/// exactly when it should be, with nothing changed.
pub fn damaged_rooms_are_refused(random: &mut Random) -> Check {
    let case = sound_case(random);
    if case.policy.len() > POLICY_BYTES {
        return Ok(());
    }
    let mut room = vec![0; ROOM_NUMBERS];
    for (_, record) in &case.records {
        // A refused record leaves the room as it was.
        let _ = feed(&case.policy, record, &mut room);
    }
    for _ in 0..8 {
        let mut damaged = room.clone();
        for _ in 0..random.between(1, 2) {
            damage_room(&mut damaged, random);
        }
        let fits = room_fits(&case.plan, &damaged);
        judged(&case.policy, &mut damaged, &room, fits)?;
    }
    Ok(())
}

fn judged(policy: &[u8], damaged: &mut [u32], good: &[u32], fits: bool) -> Check {
    let before = damaged.to_vec();
    let mut kept = good.to_vec();
    let finished = finish(policy, damaged, &mut []).err();
    // An empty text is refused as a record, but only after the room is.
    let fed = feed(policy, b"", damaged).err();
    let joined = join(policy, &mut kept, damaged).err();
    let numbers = [finished, fed, joined].map(|refusal| refusal.map_or(0, |r| r.number));
    let expected = if fits {
        numbers[0] >= 10 && numbers[1..] == [8, 0]
    } else {
        numbers == [6; 3]
    };
    let unchanged = damaged == before && (fits || kept == good);
    ensure(expected && unchanged, || {
        let at = before.iter().zip(good).position(|(a, b)| a != b);
        format!(
            "room changed at {at:?}, fits {fits}: {numbers:?}\npolicy {}",
            show(policy)
        )
    })?;
    let into_damaged = join(policy, damaged, good).err();
    ensure(fits || into_damaged == Some(Refusal::ROOM_CONTENT), || {
        "joined into".to_owned()
    })
}

/// Whether each row is what some feed under the plan could leave in it.
fn room_fits(plan: &PlannedPolicy, room: &[u32]) -> bool {
    let mut rows = room.chunks(256);
    let rows_fit = plan.statements.iter().all(|statement| {
        let lists = statement.lists();
        let mut entries = lists
            .iter()
            .flat_map(|l| l.entries.iter().map(|e| (l.spot, e)));
        entries.all(|(spot, entry)| {
            let row = rows.next().unwrap_or_default();
            is_zero(row) || statement.allow && row_fits(spot, entry, row)
        })
    });
    rows_fit && rows.all(is_zero)
}

fn row_fits(spot: Spot, entry: &PlannedEntry, row: &[u32]) -> bool {
    let length = row[1] as usize;
    match (row[0], entry) {
        (1, PlannedEntry::Text(_)) => is_zero(&row[1..]),
        (4, PlannedEntry::Number(bound)) => {
            let number = u64::from(row[2]) << 32 | u64::from(row[1]);
            number <= *bound && is_zero(&row[3..])
        }
        (kind @ (2 | 3), PlannedEntry::Text(pieces)) if length <= ENTRY_CHARACTERS => {
            let text: Option<Vec<char>> = row[2..2 + length]
                .iter()
                .map(|&n| char::from_u32(n))
                .collect();
            let fits = |text: Vec<char>| text_fits(spot, pieces, kind == 3, &text);
            is_zero(&row[2 + length..]) && text.is_some_and(fits)
        }
        _ => false,
    }
}

fn text_fits(spot: Spot, entry: &[Piece], star: bool, text: &[char]) -> bool {
    let mut held: Pattern = text.iter().map(|c| Piece::Plain(*c)).collect();
    let is_narrower = if star {
        final_star(entry).is_some_and(|own| held.len() > own.len() && held.starts_with(own))
    } else {
        held != entry && pieces_match(entry, text)
    };
    if star {
        held.push(Piece::Star);
    }
    is_narrower && held.len() <= ENTRY_CHARACTERS && is_legal(spot, &held)
}

fn is_zero(numbers: &[u32]) -> bool {
    numbers.iter().all(|&number| number == 0)
}
