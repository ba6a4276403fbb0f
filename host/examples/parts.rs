//! Refines a policy by a log that is walked in parts, each by a thread.
//!
//! ```text
//! parts POLICY LOG [PARTS]   as many parts as there are processors, or so many
//! ```
//!
//! LOG is a file: each thread reads its own part of it. Rooms are joined in the
//! order in which they arrive. The refined policy is printed, and on standard
//! error how many records were refused.
//!
//! Exit status: 0 done, 1 refused, 2 wrong use, 3 something could not be read or
//! written.

#![forbid(unsafe_code)]

#[path = "scale/cut.rs"]
mod cut;
#[path = "scale/trouble.rs"]
mod trouble;
#[path = "scale/walk.rs"]
mod walk;

use std::fs::{self, File};
use std::io::{self, BufReader, Read, Seek, SeekFrom, Write};
use std::ops::Range;
use std::path::Path;
use std::process::ExitCode;
use std::sync::mpsc;
use std::thread;
use trouble::{Trouble, STATUSES};
use walk::{walk, Walked};

const USAGE: &str = "\
parts POLICY LOG [PARTS]
    walks the parts of a log by threads, and prints the refined policy
";

fn main() -> ExitCode {
    match obey() {
        Ok(()) => ExitCode::SUCCESS,
        Err(trouble) => {
            eprintln!("parts: {trouble}");
            ExitCode::from(trouble.status())
        }
    }
}

fn obey() -> Result<(), Trouble> {
    let arguments: Vec<_> = std::env::args_os().skip(1).collect();
    if arguments
        .iter()
        .any(|word| word == "-h" || word == "--help")
    {
        return Ok(writeln!(io::stdout(), "{USAGE}{STATUSES}")?);
    }
    let (policy, log, parts) = match arguments.as_slice() {
        [policy, log] => (policy, log, Some(processors())),
        [policy, log, parts] => (policy, log, parts.to_str().and_then(|n| n.parse().ok())),
        _ => return Err(wrong("a policy and a log are needed")),
    };
    match parts {
        Some(parts @ 1..) => run(Path::new(policy), Path::new(log), parts),
        _ => Err(wrong("PARTS is a number from 1 on")),
    }
}

fn wrong(why: &str) -> Trouble {
    Trouble::WrongUse(format!("{why}; see parts --help"))
}

fn processors() -> u64 {
    thread::available_parallelism().map_or(1, |count| count.get() as u64)
}

fn run(policy: &Path, log: &Path, parts: u64) -> Result<(), Trouble> {
    let text = fs::read(policy).map_err(|error| Trouble::from(error).with(policy))?;
    let walked = walk_parts(&text, log, parts)?;
    eprint!("{walked}");
    let mut line = walked.room.finish(&text)?;
    line.push(b'\n');
    io::stdout().write_all(&line)?;
    Ok(())
}

/// Walks the parts side by side, and joins each as soon as it is done.
fn walk_parts(policy: &[u8], log: &Path, parts: u64) -> Result<Walked, Trouble> {
    let file = File::open(log).map_err(|error| Trouble::from(error).with(log))?;
    let parts = cut::cut(&mut BufReader::new(file), parts);
    let parts = parts.map_err(|error| Trouble::from(error).with(log))?;
    thread::scope(|scope| {
        let (send, arriving) = mpsc::channel();
        for part in parts {
            let send = send.clone();
            // Nobody is left to receive once another part has failed.
            scope.spawn(move || drop(send.send(walk_part(policy, log, part))));
        }
        drop(send);
        let mut whole = Walked::default();
        for part in arriving {
            whole.join(policy, &part?)?;
        }
        Ok(whole)
    })
}

fn walk_part(policy: &[u8], log: &Path, part: Range<u64>) -> Result<Walked, Trouble> {
    let mut log = File::open(log)?;
    log.seek(SeekFrom::Start(part.start))?;
    walk(policy, BufReader::new(log.take(part.end - part.start)))
}
