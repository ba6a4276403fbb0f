//! The twelve reasons for a refusal, each with its words: they are said here, and
//! docs/REFUSALS.md has the same.

use core::fmt;

macro_rules! reasons {
    ($($number:literal $name:ident: $meaning:literal, $cause:literal;)*) => {
        /// Why a call was refused, by name.
        ///
        /// Where several apply, the one of the lowest number is given.
        ///
        /// | Number | Reason | Meaning | Usual cause |
        /// |---|---|---|---|
        $(#[doc = concat!(
            "| ", $number, " | [`", stringify!($name), "`](Reason::", stringify!($name), ") | ",
            $meaning, " | ", $cause, " |"
        )])*
        ///
        /// ```
        /// use muckposy::{restate_to_vec, Reason};
        ///
        /// let refusal = restate_to_vec(b"{}").unwrap_err();
        /// assert_eq!(refusal.reason(), Reason::PolicyLayout);
        /// assert_eq!(refusal.reason().number(), refusal.number);
        /// ```
        #[derive(Debug, Clone, Copy, PartialEq, Eq, PartialOrd, Ord, Hash)]
        #[non_exhaustive]
        pub enum Reason {
            $(
                #[doc = concat!($number, ": ", $meaning, ".")]
                #[doc = ""]
                #[doc = concat!("Usual cause: ", $cause, ".")]
                $name = $number,
            )*
        }

        impl Reason {
            /// Every reason, in the order of the numbers.
            pub const ALL: &'static [Reason] = &[$(Reason::$name),*];

            /// What it means, and what causes it as a rule.
            const fn words(self) -> (&'static str, &'static str) {
                match self {
                    $(Reason::$name => ($meaning, $cause),)*
                }
            }
        }
    };
}

reasons! {
    1 RoomLength:
        "a room is not 16,384 numbers long",
        "a saved room that was cut, or a slice of another length";
    2 PolicyTooLong:
        "the policy is longer than 16,384 bytes",
        "several policies in one file, or a file that is no policy";
    3 PolicyNotJson:
        "the policy is not a JSON text in UTF-8",
        "a byte order mark, UTF-16 or a compressed file, a comment or a comma too many, a file cut short";
    4 PolicyLayout:
        "the policy is JSON, but not laid out as a policy",
        "NotAction, NotResource, Principal or Id, an operator or a variable that is not read, another Version, \
         a member twice";
    5 PolicyLimit:
        "the policy has more or longer parts than the limits let it have",
        "more than 16 statements, 64 entries or 8 condition rows in a statement, or an entry of more than \
         254 characters";
    6 RoomContent:
        "a room holds something that cannot come from this policy",
        "a room fed under another policy, or under this one before it was changed, or a damaged file";
    7 RecordTooLong:
        "the record is longer than 8,192 bytes",
        "line ends that were lost, so that many records stand on one line";
    8 RecordNotJson:
        "the record is not a JSON text in UTF-8",
        "a byte order mark, UTF-16 or a compressed log, a record indented over several lines, a line cut short";
    9 RecordLayout:
        "the record is JSON, but not laid out as a record or over a limit",
        "events of CloudTrail or of another log, more than one action or resource in a record, a bare string \
         for a list";
    10 NothingAllowed:
        "the log leaves no Allow statement to write",
        "an empty log, a log of another role, or only records that were refused or not allowed";
    11 ResultTooLong:
        "the written policy would be longer than 6,144 bytes",
        "many long entries; AWS takes no longer managed policy either";
    12 OutputTooShort:
        "the output is too short for the written policy",
        "a short buffer; 6,144 bytes are always enough";
}

impl Reason {
    /// 1 to 12.
    ///
    /// ```
    /// assert_eq!(muckposy::Reason::RoomLength.number(), 1);
    /// ```
    #[must_use]
    pub const fn number(self) -> u32 {
        self as u32
    }

    /// The reason of this number, if there is one.
    ///
    /// ```
    /// use muckposy::Reason;
    ///
    /// assert_eq!(Reason::from_number(12), Some(Reason::OutputTooShort));
    /// assert_eq!(Reason::from_number(0), None);
    /// ```
    #[must_use]
    pub fn from_number(number: u32) -> Option<Reason> {
        let mut all = Reason::ALL.iter().copied();
        all.find(|reason| reason.number() == number)
    }

    /// What it means, in a few words.
    ///
    /// ```
    /// let meaning = muckposy::Reason::PolicyTooLong.meaning();
    /// assert_eq!(meaning, "the policy is longer than 16,384 bytes");
    /// ```
    #[must_use]
    pub const fn meaning(self) -> &'static str {
        self.words().0
    }

    /// What causes it as a rule, in a few words.
    ///
    /// ```
    /// let cause = muckposy::Reason::OutputTooShort.usual_cause();
    /// assert_eq!(cause, "a short buffer; 6,144 bytes are always enough");
    /// ```
    #[must_use]
    pub const fn usual_cause(self) -> &'static str {
        self.words().1
    }
}

/// Its meaning.
impl fmt::Display for Reason {
    fn fmt(&self, to: &mut fmt::Formatter<'_>) -> fmt::Result {
        to.pad(self.meaning())
    }
}
