//! The six operations, with their numbered answers as Rust types.

use crate::decision::{Decision, Outcome};
use crate::linked::{self, Reply};
use crate::refusal::Refusal;
use alloc::vec;
use alloc::vec::Vec;

/// No result of [`finish`] or [`restate`] is longer.
pub const RESULT_BYTES: usize = 6_144;

/// What the policy decides on a record.
///
/// # Errors
///
/// | Refused by | On account of |
/// |---|---|
/// | 2, 3, 4, 5 | the policy |
/// | 7, 8, 9 | the record |
///
/// ```
/// use muckposy::{decide, Decision, Outcome};
///
/// let policy = br#"{"Version":"2012-10-17","Statement":[
///     {"Effect":"Allow","Action":"s3:*","Resource":"*"},
///     {"Effect":"Deny","Action":"s3:Put*","Resource":"*"}]}"#;
/// let decision = decide(policy, br#"{"ActionNames":["s3:PutObject"]}"#)?;
/// assert_eq!(decision, Decision { outcome: Outcome::ExplicitlyDenied, statement: 2 });
/// # Ok::<(), muckposy::Refusal>(())
/// ```
pub fn decide(policy: &[u8], record: &[u8]) -> Result<Decision, Refusal> {
    decision(linked::decide(policy, record))
}

/// Decides on a record and, where the policy allows it, charges it to the room.
///
/// A room is 16,384 numbers, all zero at first; see [`Room`](crate::Room) for
/// one that keeps its own. Records that are not allowed change nothing.
///
/// # Errors
///
/// | Refused by | On account of |
/// |---|---|
/// | 1, 6 | the room |
/// | 2, 3, 4, 5 | the policy |
/// | 7, 8, 9 | the record |
///
/// ```
/// use muckposy::{feed, Outcome};
///
/// let policy = br#"{"Version":"2012-10-17","Statement":
///     {"Effect":"Allow","Action":"s3:*","Resource":"*"}}"#;
/// let mut room = vec![0; 16_384];
/// let decision = feed(policy, br#"{"ActionNames":["s3:GetObject"]}"#, &mut room)?;
/// assert_eq!(decision.outcome, Outcome::Allowed);
/// assert!(room.iter().any(|&number| number != 0));
/// # Ok::<(), muckposy::Refusal>(())
/// ```
pub fn feed(policy: &[u8], record: &[u8], room: &mut [u32]) -> Result<Decision, Refusal> {
    decision(linked::feed(policy, record, room))
}

/// Takes what another room of the same policy holds into the first.
///
/// # Errors
///
/// | Refused by | On account of |
/// |---|---|
/// | 1, 6 | either room |
/// | 2, 3, 4, 5 | the policy |
///
/// ```
/// use muckposy::{feed, join};
///
/// let policy = br#"{"Version":"2012-10-17","Statement":
///     {"Effect":"Allow","Action":"s3:*","Resource":"*"}}"#;
/// let [get, put] = ["s3:GetObject", "s3:PutObject"]
///     .map(|action| format!(r#"{{"ActionNames":["{action}"]}}"#).into_bytes());
/// let mut rooms = [(); 3].map(|()| vec![0; 16_384]);
/// let [whole, one, other] = &mut rooms;
/// feed(policy, &get, whole)?;
/// feed(policy, &put, whole)?;
/// feed(policy, &get, one)?;
/// feed(policy, &put, other)?;
/// join(policy, one, other)?;
/// assert!(one == whole);
/// # Ok::<(), muckposy::Refusal>(())
/// ```
pub fn join(policy: &[u8], room: &mut [u32], other: &[u32]) -> Result<(), Refusal> {
    done(linked::join(policy, room, other))
}

/// Writes the refined policy to the output's first bytes, and says how many.
///
/// An output of [`RESULT_BYTES`] is always long enough; [`finish_to_vec`] brings its
/// own.
///
/// # Errors
///
/// | Refused by | On account of |
/// |---|---|
/// | 1, 6 | the room |
/// | 2, 3, 4, 5 | the policy |
/// | 10, 11 | the result |
/// | 12 | the output |
///
/// ```
/// use muckposy::{feed, finish};
///
/// let policy = br#"{"Version":"2012-10-17","Statement":
///     {"Effect":"Allow","Action":["s3:*","sqs:*"],"Resource":"*"}}"#;
/// let mut room = vec![0; 16_384];
/// feed(policy, br#"{"ActionNames":["s3:GetObject"]}"#, &mut room)?;
/// let mut output = [0; 6_144];
/// let length = finish(policy, &room, &mut output)?;
/// assert_eq!(
///     std::str::from_utf8(&output[..length]).unwrap(),
///     concat!(
///         r#"{"Version":"2012-10-17","Statement":[{"Effect":"Allow","#,
///         r#""Action":["s3:GetObject"],"Resource":["*"]}]}"#,
///     )
/// );
/// # Ok::<(), muckposy::Refusal>(())
/// ```
pub fn finish(policy: &[u8], room: &[u32], output: &mut [u8]) -> Result<usize, Refusal> {
    written(linked::finish(policy, room, output))
}

/// The refined policy, as [`finish`] writes it.
///
/// # Errors
///
/// | Refused by | On account of |
/// |---|---|
/// | 1, 6 | the room |
/// | 2, 3, 4, 5 | the policy |
/// | 10, 11 | the result |
///
/// ```
/// use muckposy::{feed, finish_to_vec};
///
/// let policy = br#"{"Version":"2012-10-17","Statement":
///     {"Effect":"Allow","Action":"s3:*","Resource":"*"}}"#;
/// let mut room = vec![0; 16_384];
/// feed(policy, br#"{"ActionNames":["s3:GetObject"]}"#, &mut room)?;
/// let refined = finish_to_vec(policy, &room)?;
/// assert!(refined.ends_with(br#""Action":["s3:GetObject"],"Resource":["*"]}]}"#));
/// # Ok::<(), muckposy::Refusal>(())
/// ```
pub fn finish_to_vec(policy: &[u8], room: &[u32]) -> Result<Vec<u8>, Refusal> {
    to_vec(|output| finish(policy, room, output))
}

/// Writes the policy as it is, in the form in which [`finish`] writes, and says
/// in how many bytes.
///
/// An output of [`RESULT_BYTES`] is always long enough; [`restate_to_vec`] brings its
/// own.
///
/// # Errors
///
/// | Refused by | On account of |
/// |---|---|
/// | 2, 3, 4, 5 | the policy |
/// | 11 | the result |
/// | 12 | the output |
///
/// ```
/// use muckposy::restate;
///
/// let policy = br#"{ "Statement": {"Resource":"*", "Action":"s3:*", "Effect":"Deny"},
///     "Version": "2012-10-17" }"#;
/// let mut output = [0; 6_144];
/// let length = restate(policy, &mut output)?;
/// assert_eq!(
///     output[..length],
///     *br#"{"Version":"2012-10-17","Statement":[{"Effect":"Deny","Action":["s3:*"],"Resource":["*"]}]}"#
/// );
/// # Ok::<(), muckposy::Refusal>(())
/// ```
pub fn restate(policy: &[u8], output: &mut [u8]) -> Result<usize, Refusal> {
    written(linked::restate(policy, output))
}

/// The policy as it is, as [`restate`] writes it.
///
/// # Errors
///
/// | Refused by | On account of |
/// |---|---|
/// | 2, 3, 4, 5 | the policy |
/// | 11 | the result |
///
/// ```
/// let policy = br#"{ "Version": "2012-10-17",
///     "Statement": {"Resource":"*", "Action":"s3:*", "Effect":"Deny"} }"#;
/// let restated = muckposy::restate_to_vec(policy)?;
/// assert!(restated.starts_with(br#"{"Version":"2012-10-17","Statement":[{"Effect":"Deny","#));
/// # Ok::<(), muckposy::Refusal>(())
/// ```
pub fn restate_to_vec(policy: &[u8]) -> Result<Vec<u8>, Refusal> {
    to_vec(|output| restate(policy, output))
}

/// Makes a room empty, whatever it held.
///
/// # Errors
///
/// | Refused by | On account of |
/// |---|---|
/// | 1 | the room |
///
/// ```
/// let mut room = vec![7; 16_384];
/// muckposy::fresh(&mut room)?;
/// assert!(room.iter().all(|&number| number == 0));
/// assert_eq!(muckposy::fresh(&mut room[1..]).unwrap_err().number, 1);
/// # Ok::<(), muckposy::Refusal>(())
/// ```
pub fn fresh(room: &mut [u32]) -> Result<(), Refusal> {
    done(linked::fresh(room))
}

/// The reply to a call that was not refused. Such a reply has no place, and a
/// refusal answers nothing else.
fn accepted(reply: Reply) -> Result<Reply, Refusal> {
    if reply.number == 0 {
        debug_assert_eq!(reply.place, 0);
        return Ok(reply);
    }
    debug_assert_eq!((reply.decision, reply.detail), (0, 0));
    let number = u32::try_from(reply.number).expect("refusals go up to 12");
    let place = reply.place;
    Err(Refusal { number, place })
}

fn decision(reply: Reply) -> Result<Decision, Refusal> {
    let reply = accepted(reply)?;
    let outcome = match reply.decision {
        1 => Outcome::Allowed,
        2 => Outcome::ExplicitlyDenied,
        3 => Outcome::ImplicitlyDenied,
        other => panic!("the library has no decision {other}"),
    };
    let statement = u32::try_from(reply.detail).expect("statements go up to 16");
    Ok(Decision { outcome, statement })
}

fn written(reply: Reply) -> Result<usize, Refusal> {
    let reply = accepted(reply)?;
    debug_assert_eq!(reply.decision, 0);
    Ok(reply.detail)
}

/// The bytes that are written to an output which is always long enough.
fn to_vec(write: impl FnOnce(&mut [u8]) -> Result<usize, Refusal>) -> Result<Vec<u8>, Refusal> {
    let mut output = vec![0; RESULT_BYTES];
    let length = write(&mut output)?;
    output.truncate(length);
    Ok(output)
}

fn done(reply: Reply) -> Result<(), Refusal> {
    let reply = accepted(reply)?;
    debug_assert_eq!((reply.decision, reply.detail), (0, 0));
    Ok(())
}
