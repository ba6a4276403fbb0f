//! A room that owns its numbers, and its form in bytes.

use crate::decision::Decision;
use crate::operations;
use crate::refusal::Refusal;
use alloc::boxed::Box;
use alloc::vec;
use alloc::vec::Vec;
use core::error::Error;
use core::fmt;

/// What the records of a log have charged to the entries of one policy.
///
/// A room does not remember its policy: each call is given the policy again, and
/// a room that cannot belong to it is refused by 6.
///
/// ```
/// use muckposy::Room;
///
/// let policy = br#"{"Version":"2012-10-17","Statement":
///     {"Effect":"Allow","Action":"s3:*","Resource":"*"}}"#;
/// let record = br#"{"ActionNames":["s3:GetObject"]}"#;
///
/// // Two parts of a log, walked apart; one room travels as bytes.
/// let (mut one, mut other) = (Room::new(), Room::new());
/// one.feed(policy, record)?;
/// other.feed(policy, record)?;
/// let saved = other.to_bytes();
///
/// one.join(policy, &Room::from_bytes(&saved)?)?;
/// assert!(one == other);
/// assert!(one.finish(policy)?.ends_with(br#""Action":["s3:GetObject"],"Resource":["*"]}]}"#));
/// # Ok::<(), Box<dyn std::error::Error>>(())
/// ```
#[derive(Clone, PartialEq, Eq, Hash)]
pub struct Room {
    /// Always of the one length.
    numbers: Box<[u32]>,
}

impl Room {
    /// How many numbers a room has.
    pub const NUMBERS: usize = 16_384;

    /// How many bytes a saved room has.
    pub const BYTES: usize = Room::NUMBERS * size_of::<u32>();

    /// An empty room.
    ///
    /// ```
    /// let room = muckposy::Room::new();
    /// assert!(room.as_slice().iter().all(|&number| number == 0));
    /// ```
    #[must_use]
    pub fn new() -> Room {
        Room {
            numbers: vec![0; Room::NUMBERS].into_boxed_slice(),
        }
    }

    /// The numbers, for [`join`](crate::join) and [`finish`](crate::finish).
    ///
    /// ```
    /// assert_eq!(muckposy::Room::new().as_slice().len(), 16_384);
    /// ```
    #[must_use]
    pub fn as_slice(&self) -> &[u32] {
        &self.numbers
    }

    /// The numbers, for [`feed`](crate::feed), [`join`](crate::join) and
    /// [`fresh`](crate::fresh).
    ///
    /// ```
    /// let mut room = muckposy::Room::new();
    /// muckposy::fresh(room.as_mut_slice())?;
    /// # Ok::<(), muckposy::Refusal>(())
    /// ```
    #[must_use]
    pub fn as_mut_slice(&mut self) -> &mut [u32] {
        &mut self.numbers
    }

    /// Makes the room empty, as [`fresh`](crate::fresh) does, for another log.
    ///
    /// ```
    /// let mut room = muckposy::Room::new();
    /// room.as_mut_slice()[7] = 1;
    /// room.clear();
    /// assert!(room == muckposy::Room::new());
    /// ```
    pub fn clear(&mut self) {
        self.numbers.fill(0);
    }

    /// As [`feed`](crate::feed): decides on a record and charges it here.
    ///
    /// # Errors
    ///
    /// | Refused by | On account of |
    /// |---|---|
    /// | 2, 3, 4, 5 | the policy |
    /// | 6 | the room |
    /// | 7, 8, 9 | the record |
    ///
    /// ```
    /// let policy = br#"{"Version":"2012-10-17","Statement":
    ///     {"Effect":"Deny","Action":"*","Resource":"*"}}"#;
    /// let mut room = muckposy::Room::new();
    /// let decision = room.feed(policy, br#"{"ActionNames":["s3:GetObject"]}"#)?;
    /// assert_eq!(decision.outcome, muckposy::Outcome::ExplicitlyDenied);
    /// assert!(room == muckposy::Room::new());
    /// # Ok::<(), muckposy::Refusal>(())
    /// ```
    pub fn feed(&mut self, policy: &[u8], record: &[u8]) -> Result<Decision, Refusal> {
        operations::feed(policy, record, &mut self.numbers)
    }

    /// As [`join`](crate::join): takes in what another room holds.
    ///
    /// # Errors
    ///
    /// | Refused by | On account of |
    /// |---|---|
    /// | 2, 3, 4, 5 | the policy |
    /// | 6 | either room |
    ///
    /// ```
    /// let policy = br#"{"Version":"2012-10-17","Statement":
    ///     {"Effect":"Allow","Action":"s3:*","Resource":"*"}}"#;
    /// let (mut room, mut other) = (muckposy::Room::new(), muckposy::Room::new());
    /// other.feed(policy, br#"{"ActionNames":["s3:GetObject"]}"#)?;
    /// room.join(policy, &other)?;
    /// assert!(room == other);
    /// # Ok::<(), muckposy::Refusal>(())
    /// ```
    pub fn join(&mut self, policy: &[u8], other: &Room) -> Result<(), Refusal> {
        operations::join(policy, &mut self.numbers, &other.numbers)
    }

    /// The refined policy, as [`finish`](crate::finish) writes it.
    ///
    /// # Errors
    ///
    /// | Refused by | On account of |
    /// |---|---|
    /// | 2, 3, 4, 5 | the policy |
    /// | 6 | the room |
    /// | 10, 11 | the result |
    ///
    /// ```
    /// let policy = br#"{"Version":"2012-10-17","Statement":
    ///     {"Effect":"Allow","Action":"s3:*","Resource":"*"}}"#;
    /// let empty = muckposy::Room::new();
    /// assert_eq!(empty.finish(policy).unwrap_err().number, 10);
    /// ```
    pub fn finish(&self, policy: &[u8]) -> Result<Vec<u8>, Refusal> {
        operations::finish_to_vec(policy, &self.numbers)
    }

    /// The numbers in order, each as four bytes, the lowest first.
    ///
    /// ```
    /// let saved = muckposy::Room::new().to_bytes();
    /// assert_eq!(saved.len(), muckposy::Room::BYTES);
    /// ```
    #[must_use]
    pub fn to_bytes(&self) -> Vec<u8> {
        let bytes = self.numbers.iter().flat_map(|number| number.to_le_bytes());
        bytes.collect()
    }

    /// The room that was saved as these bytes.
    ///
    /// Only their number is looked at here; what they hold is judged, for one
    /// policy, by the operations.
    ///
    /// # Errors
    ///
    /// If they are not [`Room::BYTES`] many.
    ///
    /// ```
    /// use muckposy::Room;
    ///
    /// let room = Room::from_bytes(&vec![0; Room::BYTES])?;
    /// assert!(room == Room::new());
    /// assert_eq!(Room::from_bytes(b"cut").unwrap_err().length, 3);
    /// # Ok::<(), muckposy::WrongLength>(())
    /// ```
    pub fn from_bytes(bytes: &[u8]) -> Result<Room, WrongLength> {
        let length = bytes.len();
        if length != Room::BYTES {
            return Err(WrongLength { length });
        }
        let number = |four: &[u8]| u32::from_le_bytes([four[0], four[1], four[2], four[3]]);
        let numbers = bytes.chunks_exact(size_of::<u32>()).map(number);
        Ok(Room {
            numbers: numbers.collect(),
        })
    }
}

impl Default for Room {
    fn default() -> Room {
        Room::new()
    }
}

/// Rooms are long: how many numbers are not zero is enough to tell them apart at
/// a glance.
impl fmt::Debug for Room {
    fn fmt(&self, to: &mut fmt::Formatter<'_>) -> fmt::Result {
        let filled = self.numbers.iter().filter(|&&number| number != 0).count();
        to.debug_struct("Room").field("filled", &filled).finish()
    }
}

/// Bytes that are no saved room, since there are too many or too few of them.
#[derive(Debug, Clone, Copy, PartialEq, Eq, Hash)]
pub struct WrongLength {
    /// How many there are.
    pub length: usize,
}

impl fmt::Display for WrongLength {
    fn fmt(&self, to: &mut fmt::Formatter<'_>) -> fmt::Result {
        let (found, wanted) = (self.length, Room::BYTES);
        write!(to, "a saved room has {wanted} bytes, not {found}")
    }
}

impl Error for WrongLength {}
