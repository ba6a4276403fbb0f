//! What the arguments of `room` ask for.

use crate::trouble::Trouble;
use std::ffi::OsString;
use std::path::PathBuf;

pub const USAGE: &str = "\
room POLICY ROOM < PART
    walks a part of a log; saves its room, and beside it the policy as ROOM.policy
room POLICY --join [--expect N] [--unstamped] ROOM ..
    joins saved rooms, and prints the refined policy
    --expect N   refuses other than N rooms, and a room that is given twice
    --unstamped  takes rooms that have no ROOM.policy
";

#[derive(Debug)]
pub enum Asked {
    Help,
    Walk { policy: PathBuf, room: PathBuf },
    Join(Joining),
}

#[derive(Debug)]
pub struct Joining {
    pub policy: PathBuf,
    pub rooms: Vec<PathBuf>,
    pub expect: Option<usize>,
    pub unstamped: bool,
}

/// Options may stand anywhere; all that begins with - is one.
pub fn asked(arguments: impl IntoIterator<Item = OsString>) -> Result<Asked, Trouble> {
    let mut arguments = arguments.into_iter();
    let (mut paths, mut expect) = (Vec::new(), None);
    let (mut join, mut unstamped) = (false, false);
    while let Some(argument) = arguments.next() {
        match argument.to_str() {
            Some("-h" | "--help") => return Ok(Asked::Help),
            Some("--join") => join = true,
            Some("--unstamped") => unstamped = true,
            Some("--expect") => expect = Some(count(arguments.next())?),
            Some(option) if option.starts_with('-') => {
                return Err(wrong(&format!("there is no option {option}")));
            }
            _ => paths.push(PathBuf::from(argument)),
        }
    }
    match (paths.as_slice(), join) {
        ([_, _, ..], true) => Ok(Asked::Join(Joining {
            policy: paths.remove(0),
            rooms: paths,
            expect,
            unstamped,
        })),
        ([policy, room], false) if expect.is_none() && !unstamped => Ok(Asked::Walk {
            policy: policy.clone(),
            room: room.clone(),
        }),
        _ => Err(wrong("these arguments do not go together")),
    }
}

fn count(argument: Option<OsString>) -> Result<usize, Trouble> {
    let number = argument.and_then(|text| text.to_str()?.parse().ok());
    let number = number.filter(|&number| number > 0);
    number.ok_or_else(|| wrong("--expect takes a number from 1 on"))
}

fn wrong(why: &str) -> Trouble {
    Trouble::WrongUse(format!("{why}; see room --help"))
}
