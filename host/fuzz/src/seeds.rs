//! The first inputs: the example of the gate, what the trials call their subject
//! with, and generated logs.

use crate::input::Input;
use second::generate::random::Random;
use second::implementation::{Implementation, Second};
use second::{Decision, Refusal};
use std::cell::RefCell;
use std::collections::{BTreeMap, BTreeSet};
use std::fs;
use std::io;
use std::path::Path;
use trials::{logs, Encoding, Subject, ALL};

/// Of the generated logs so many, and of the texts of a trial so many.
const LOGS: u64 = 300;
const POLICIES: usize = 40;

/// Changes that make something of a room: a mark, a length, a character, a row
/// that stands elsewhere.
const CHANGES: [&[[u8; 6]]; 5] = [
    &[],
    &[[0, 0, 1, 0, 0, 0]],
    &[[0, 1, 3, 0, 0, 0], [1, 2, 42, 0, 0, 0]],
    &[[1, 0, 3, 0, 0, 0]],
    &[[2, 0, 0, 0, 0, 0xFF]],
];

/// Writes them to a folder, and says how many.
pub fn write(folder: &Path) -> io::Result<usize> {
    fs::create_dir_all(folder)?;
    let mut seeds = BTreeSet::new();
    let mut add = |policy: &[u8], records: &[Vec<u8>]| {
        let changes = CHANGES[seeds.len() % CHANGES.len()];
        seeds.extend(Input::write(policy, records, changes));
    };
    for (policy, records) in gate()?.iter().chain(&texts_of_trials()) {
        for some in records.chunks(8) {
            add(policy, some);
        }
    }
    for seed in 0..LOGS {
        let log = logs::log(&mut Random::new(seed));
        add(&log.policy, &log.records);
    }
    for (number, seed) in seeds.iter().enumerate() {
        fs::write(folder.join(format!("{number:04}")), seed)?;
    }
    Ok(seeds.len())
}

type Log = (Vec<u8>, Vec<Vec<u8>>);

fn gate() -> io::Result<Vec<Log>> {
    let folder = Path::new(env!("CARGO_MANIFEST_DIR")).join("../../examples/gate");
    let log = fs::read(folder.join("night.log"))?;
    let lines = log.split(|&byte| byte == b'\n');
    let records = lines.filter(|line| !line.is_empty()).map(<[u8]>::to_vec);
    Ok(vec![(
        fs::read(folder.join("policy.json"))?,
        records.collect(),
    )])
}

/// The policies of each trial, not too many of one, each with its records.
fn texts_of_trials() -> Vec<Log> {
    let mut all = Vec::new();
    for (_, trial) in ALL {
        let listener = Listener::default();
        let subject = Subject {
            implementation: &listener,
            encoding: Encoding::LowerFirst,
        };
        trial(&subject).expect("the second implementation passes");
        let heard = listener.0.into_inner();
        let step = heard.len() / POLICIES + 1;
        let logs = heard.into_iter().step_by(step);
        all.extend(logs.map(|(policy, records)| (policy, records.into_iter().take(8).collect())));
    }
    all
}

/// The second implementation, with an ear for what it is called with.
#[derive(Default)]
struct Listener(RefCell<BTreeMap<Vec<u8>, BTreeSet<Vec<u8>>>>);

impl Listener {
    fn hear(&self, policy: &[u8], record: Option<&[u8]>) {
        let mut heard = self.0.borrow_mut();
        let records = heard.entry(policy.to_vec()).or_default();
        records.extend(record.map(<[u8]>::to_vec));
    }
}

impl Implementation for Listener {
    fn decide(&self, policy: &[u8], record: &[u8]) -> Result<Decision, Refusal> {
        self.hear(policy, Some(record));
        Second.decide(policy, record)
    }

    fn feed(&self, policy: &[u8], record: &[u8], room: &mut [u32]) -> Result<Decision, Refusal> {
        self.hear(policy, Some(record));
        Second.feed(policy, record, room)
    }

    fn join(&self, policy: &[u8], room: &mut [u32], other: &[u32]) -> Result<(), Refusal> {
        self.hear(policy, None);
        Second.join(policy, room, other)
    }

    fn finish(&self, policy: &[u8], room: &[u32], output: &mut [u8]) -> Result<usize, Refusal> {
        self.hear(policy, None);
        Second.finish(policy, room, output)
    }

    fn restate(&self, policy: &[u8], output: &mut [u8]) -> Result<usize, Refusal> {
        self.hear(policy, None);
        Second.restate(policy, output)
    }

    fn fresh(&self, room: &mut [u32]) -> Result<(), Refusal> {
        Second.fresh(room)
    }
}
