//! Why an example ended without its result, and the exit status that says so.

use muckposy::Refusal;
use std::fmt;
use std::io;
use std::path::Path;

/// What the examples say of their exit status.
pub const STATUSES: &str =
    "exit status: 0 done, 1 refused, 2 wrong use, 3 something could not be read or written";

/// What was in the way; it travels between threads.
#[derive(Debug)]
pub enum Trouble {
    /// The library refused, or what was given is not what was asked for.
    Refused(String),
    /// Arguments that ask for nothing that there is.
    WrongUse(String),
    /// Something could not be read or written.
    Failed(String),
}

impl Trouble {
    /// 0 is left for runs without trouble.
    pub fn status(&self) -> u8 {
        match self {
            Trouble::Refused(_) => 1,
            Trouble::WrongUse(_) => 2,
            Trouble::Failed(_) => 3,
        }
    }

    /// The same trouble, with the file that it is about.
    pub fn with(self, path: &Path) -> Trouble {
        let named = |why: String| format!("{}: {why}", path.display());
        match self {
            Trouble::Refused(why) => Trouble::Refused(named(why)),
            Trouble::WrongUse(why) => Trouble::WrongUse(named(why)),
            Trouble::Failed(why) => Trouble::Failed(named(why)),
        }
    }
}

impl fmt::Display for Trouble {
    fn fmt(&self, to: &mut fmt::Formatter<'_>) -> fmt::Result {
        match self {
            Trouble::Refused(why) | Trouble::WrongUse(why) | Trouble::Failed(why) => {
                to.write_str(why)
            }
        }
    }
}

impl From<Refusal> for Trouble {
    fn from(refusal: Refusal) -> Trouble {
        Trouble::Refused(refusal.to_string())
    }
}

impl From<io::Error> for Trouble {
    fn from(error: io::Error) -> Trouble {
        Trouble::Failed(error.to_string())
    }
}
