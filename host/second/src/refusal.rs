//! The numbered refusals and their meaning in words.

use std::fmt;

/// Why a call was refused; a refused call has changed nothing that was lent.
#[derive(Debug, Clone, Copy, PartialEq, Eq)]
pub struct Refusal {
    /// 1 to 12.
    pub number: u32,
    /// An offset in the text for 3 and 8, otherwise 0.
    pub place: usize,
}

impl Refusal {
    pub const ROOM_LENGTH: Refusal = Refusal::plain(1);
    pub const POLICY_TOO_LONG: Refusal = Refusal::plain(2);
    pub const POLICY_LAYOUT: Refusal = Refusal::plain(4);
    pub const POLICY_LIMIT: Refusal = Refusal::plain(5);
    pub const ROOM_CONTENT: Refusal = Refusal::plain(6);
    pub const RECORD_TOO_LONG: Refusal = Refusal::plain(7);
    pub const RECORD_LAYOUT: Refusal = Refusal::plain(9);
    pub const NO_ALLOW_LEFT: Refusal = Refusal::plain(10);
    pub const RESULT_TOO_LONG: Refusal = Refusal::plain(11);
    pub const OUTPUT_TOO_SHORT: Refusal = Refusal::plain(12);

    const fn plain(number: u32) -> Refusal {
        Refusal { number, place: 0 }
    }

    pub const fn policy_breaks(place: usize) -> Refusal {
        Refusal { number: 3, place }
    }

    pub const fn record_breaks(place: usize) -> Refusal {
        Refusal { number: 8, place }
    }

    /// What the number stands for.
    pub fn meaning(&self) -> &'static str {
        match self.number {
            1 => "a room does not have 16384 numbers",
            2 => "the policy has more than 16384 bytes",
            3 => "the policy is no JSON text in UTF-8",
            4 => "the policy is JSON without the policy layout",
            5 => "the policy has the layout but exceeds a limit",
            6 => "a room holds something that no feed under this policy can leave",
            7 => "the record has more than 8192 bytes",
            8 => "the record is no JSON text in UTF-8",
            9 => "the record is JSON without the record layout, or exceeds a limit",
            10 => "no Allow statement is left to write",
            11 => "the result has more than 6144 bytes",
            12 => "the output has no room for the result",
            _ => "no refusal has this number",
        }
    }
}

impl fmt::Display for Refusal {
    fn fmt(&self, to: &mut fmt::Formatter<'_>) -> fmt::Result {
        write!(
            to,
            "refused {} at {}: {}",
            self.number,
            self.place,
            self.meaning()
        )
    }
}

impl std::error::Error for Refusal {}
