//! A refused call, by number and place.

use crate::reason::Reason;
use core::error::Error;
use core::fmt;

/// Why a call was refused. Whatever was lent to it is as it was before.
///
/// Where several numbers apply, the lowest is given.
///
/// ```
/// let refusal = muckposy::decide(br#"{"Version":"#, b"").unwrap_err();
/// assert_eq!((refusal.number, refusal.place), (3, 11));
/// assert_eq!(
///     refusal.to_string(),
///     "refused by 3: the policy is not a JSON text in UTF-8, from byte 11 on"
/// );
/// ```
#[derive(Debug, Clone, Copy, PartialEq, Eq, Hash)]
pub struct Refusal {
    /// 1 to 12; [`Reason`] has a name for each.
    pub number: u32,
    /// For 3 and 8 how many bytes of the text could still begin a JSON text;
    /// otherwise 0.
    pub place: usize,
}

impl Refusal {
    /// The number as a name.
    ///
    /// ```
    /// use muckposy::{Reason, Room};
    ///
    /// let policy = br#"{"Version":"2012-10-17","Statement":
    ///     {"Effect":"Allow","Action":"s3:*","Resource":"*"}}"#;
    /// match Room::new().finish(policy) {
    ///     Ok(_) => unreachable!("no record was fed"),
    ///     Err(refusal) => assert_eq!(refusal.reason(), Reason::NothingAllowed),
    /// }
    /// ```
    ///
    /// # Panics
    ///
    /// If the number is none of 1 to 12. No operation gives such a refusal, but
    /// the field can be set by hand: [`Reason::from_number`] takes any number.
    #[must_use]
    pub fn reason(&self) -> Reason {
        Reason::from_number(self.number).expect("a refusal has a number from 1 to 12")
    }
}

impl fmt::Display for Refusal {
    fn fmt(&self, to: &mut fmt::Formatter<'_>) -> fmt::Result {
        let reason = Reason::from_number(self.number);
        let meaning = reason.map_or("there is no refusal of this number", Reason::meaning);
        write!(to, "refused by {}: {meaning}", self.number)?;
        match reason {
            Some(Reason::PolicyNotJson | Reason::RecordNotJson) => {
                write!(to, ", from byte {} on", self.place)
            }
            _ => Ok(()),
        }
    }
}

impl Error for Refusal {}
