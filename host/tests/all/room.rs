//! The room that owns its numbers.

use muckposy::{
    feed, finish, finish_to_vec, fresh, join, restate, restate_to_vec, Outcome, Refusal, Room,
    WrongLength, RESULT_BYTES,
};
use trials::texts::{asking, with_resource};

/// A policy, and two rooms fed with one record each.
fn two_rooms() -> (String, [Room; 2]) {
    let policy = with_resource(r#"["arn:::::*","*"]"#);
    let rooms = ["arn:::::n1", "arn:::::n2"].map(|resource| {
        let mut room = Room::new();
        let record = asking("a:b", resource);
        let decision = room.feed(policy.as_bytes(), record.as_bytes()).unwrap();
        assert_eq!(
            (decision.outcome, decision.statement),
            (Outcome::Allowed, 1)
        );
        room
    });
    (policy, rooms)
}

#[test]
fn new_rooms_are_empty() {
    for room in [Room::new(), Room::default()] {
        assert_eq!(room.as_slice(), vec![0; 16_384]);
        assert_eq!(format!("{room:?}"), "Room { filled: 0 }");
    }
}

#[test]
fn rooms_do_what_the_operations_do() {
    let (policy, [mut room, other]) = two_rooms();
    let policy = policy.as_bytes();
    let mut numbers = vec![0; Room::NUMBERS];
    for resource in ["arn:::::n1", "arn:::::n2"] {
        feed(policy, asking("a:b", resource).as_bytes(), &mut numbers).unwrap();
    }
    room.join(policy, &other).unwrap();
    assert!(room.as_slice() == numbers);
    let mut output = vec![0; 6_144];
    let length = finish(policy, &numbers, &mut output).unwrap();
    assert_eq!(room.finish(policy).unwrap(), output[..length]);
    join(policy, room.as_mut_slice(), other.as_slice()).unwrap();
    assert!(room.as_slice() == numbers);
}

#[test]
fn cleared_rooms_are_empty() {
    let (policy, [mut room, other]) = two_rooms();
    let mut freshened = room.clone();
    fresh(freshened.as_mut_slice()).unwrap();
    room.clear();
    assert!(room == freshened && room == Room::new());
    room.join(policy.as_bytes(), &other).unwrap();
    assert!(room == other);
}

/// What is answered is what would be written.
#[test]
fn results_of_their_own() {
    let (policy, [room, _]) = two_rooms();
    let policy = policy.as_bytes();
    let mut output = [0; RESULT_BYTES];
    let length = finish(policy, room.as_slice(), &mut output).unwrap();
    let finished = finish_to_vec(policy, room.as_slice()).unwrap();
    assert_eq!(finished, output[..length]);
    assert_eq!(room.finish(policy), Ok(finished));
    let length = restate(policy, &mut output).unwrap();
    assert_eq!(restate_to_vec(policy).unwrap(), output[..length]);
    let refused = |number, place| Refusal { number, place };
    assert_eq!(restate_to_vec(b"["), Err(refused(3, 1)));
    assert_eq!(finish_to_vec(policy, &[]), Err(refused(1, 0)));
    let empty = Room::new();
    assert_eq!(finish_to_vec(policy, empty.as_slice()), Err(refused(10, 0)));
}

#[test]
fn refusals_pass_through() {
    let (policy, [mut room, other]) = two_rooms();
    let before = room.clone();
    let strange = with_resource(r#""arn:::::m*""#);
    let refused = |number, place| Refusal { number, place };
    assert_eq!(room.feed(policy.as_bytes(), b"["), Err(refused(8, 1)));
    assert_eq!(room.feed(strange.as_bytes(), b"["), Err(refused(6, 0)));
    assert_eq!(room.join(strange.as_bytes(), &other), Err(refused(6, 0)));
    assert_eq!(room.finish(strange.as_bytes()), Err(refused(6, 0)));
    assert_eq!(Room::new().finish(strange.as_bytes()), Err(refused(10, 0)));
    assert_eq!(room.finish(b"{"), Err(refused(3, 1)));
    assert!(room == before);
}

#[test]
fn saved_rooms_return() {
    let (policy, [room, other]) = two_rooms();
    for room in [Room::new(), room, other] {
        let saved = room.to_bytes();
        assert_eq!(saved.len(), Room::BYTES);
        let loaded = Room::from_bytes(&saved).unwrap();
        assert!(loaded == room);
        assert_eq!(
            loaded.finish(policy.as_bytes()),
            room.finish(policy.as_bytes())
        );
    }
}

/// The lowest byte of each number stands first.
#[test]
fn the_order_of_bytes() {
    let mut room = Room::new();
    room.as_mut_slice()[0] = 0x0403_0201;
    room.as_mut_slice()[16_383] = 0xFFFE_0000;
    let saved = room.to_bytes();
    assert_eq!(saved[..5], [1, 2, 3, 4, 0]);
    assert_eq!(saved[65_532..], [0, 0, 0xFE, 0xFF]);
    assert!(Room::from_bytes(&saved).unwrap() == room);
}

#[test]
fn bytes_of_another_length_are_no_room() {
    for length in [0, 1, 4, 65_532, 65_535, 65_537, 65_540] {
        let error = Room::from_bytes(&vec![0; length]).unwrap_err();
        assert_eq!(error, WrongLength { length });
        let told = format!("a saved room has 65536 bytes, not {length}");
        assert_eq!(error.to_string(), told);
    }
}
