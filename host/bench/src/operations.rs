//! The operations of the product, each by the proved library, by the second
//! implementation in one call, and by its desk, which has read the policy before
//! and trusts the room.

use crate::groups::{Group, Kernel, Repeat};
use crate::texts::{logs, Log};
use muckposy::Outcome;
use second::Desk;
use std::fmt::Debug;
use std::hint::black_box;

const ROOM: usize = 16_384;
const RESULT: usize = 6_144;

pub const ALL: [&str; 5] = ["decide", "feed", "join", "finish", "restate"];

pub const KERNELS: [&str; 3] = ["proved", "second", "desk"];

/// Every operation under every policy. What is measured has to be the same work:
/// the two are held to answer alike.
pub fn groups() -> Vec<Group> {
    let logs = logs();
    let groups = logs.iter().flat_map(|log| {
        agree(log);
        ALL.map(|operation| group(operation, log))
    });
    groups.collect()
}

fn group(operation: &'static str, log: &Log) -> Group {
    let with_records = matches!(operation, "decide" | "feed");
    let calls = if with_records { log.records.len() } else { 1 };
    let kernel = |name| Kernel {
        name,
        repeat: kernel(operation, log.clone(), name),
    };
    Group {
        operation,
        texts: log.name,
        calls,
        bytes: log.policy.len() as f64,
        kernels: KERNELS.map(kernel).into(),
    }
}

/// One kernel by its names, and nothing else made ready.
pub fn find(operation: &str, texts: &str, name: &str) -> Option<Repeat> {
    let known = ALL.contains(&operation) && KERNELS.contains(&name);
    let log = logs().into_iter().find(|log| log.name == texts)?;
    known.then(|| kernel(operation, log, name))
}

fn kernel(operation: &str, log: Log, name: &str) -> Repeat {
    match name {
        "proved" => proved(operation, log),
        "second" => second(operation, log),
        _ => desk(operation, log),
    }
}

/// Runs something so often; the compiler cannot drop its answer.
#[inline(always)]
fn times<T>(times: usize, mut run: impl FnMut() -> T) {
    for _ in 0..times {
        black_box(run());
    }
}

/// Runs something on every record, so often.
#[inline(always)]
fn each<T>(records: &[Vec<u8>], count: usize, mut run: impl FnMut(&[u8]) -> T) {
    times(count, || {
        for record in records {
            black_box(run(black_box(record)));
        }
    });
}

/// A room that has been fed with the whole log, and one with every other record.
type Rooms = (Vec<u32>, Vec<u32>);

fn rooms(log: &Log, mut feed: impl FnMut(&[u8], &mut [u32])) -> Rooms {
    let mut rooms = (vec![0; ROOM], vec![0; ROOM]);
    for (number, record) in log.records.iter().enumerate() {
        feed(record, &mut rooms.0);
        if number % 2 == 0 {
            feed(record, &mut rooms.1);
        }
    }
    rooms
}

/// Only some operations have rooms.
fn rooms_for(operation: &str, fed: impl FnOnce() -> Rooms) -> Rooms {
    match operation {
        "feed" | "join" | "finish" => fed(),
        _ => (Vec::new(), Vec::new()),
    }
}

/// The operations of a library that reads everything at each call.
macro_rules! calls {
    ($library:ident, $rooms:ident, $kernel:ident) => {
        fn $rooms(log: &Log) -> Rooms {
            rooms(log, |record, room| {
                $library::feed(&log.policy, record, room).expect("a record");
            })
        }

        fn $kernel(operation: &str, log: Log) -> Repeat {
            let (mut room, other) = rooms_for(operation, || $rooms(&log));
            let mut output = vec![0; RESULT];
            let Log {
                policy, records, ..
            } = log;
            match operation {
                "decide" => Box::new(move |count| {
                    each(&records, count, |record| {
                        $library::decide(black_box(&policy), record)
                    });
                }),
                "feed" => Box::new(move |count| {
                    each(&records, count, |record| {
                        $library::feed(black_box(&policy), record, &mut room)
                    });
                }),
                "join" => Box::new(move |count| {
                    times(count, || {
                        $library::join(black_box(&policy), &mut room, black_box(&other))
                    });
                }),
                "finish" => Box::new(move |count| {
                    times(count, || {
                        $library::finish(black_box(&policy), black_box(&room), &mut output)
                    });
                }),
                _ => Box::new(move |count| {
                    times(count, || $library::restate(black_box(&policy), &mut output));
                }),
            }
        }
    };
}

calls!(muckposy, proved_rooms, proved);
calls!(second, second_rooms, second);

fn desk(operation: &str, log: Log) -> Repeat {
    let (mut room, other) = rooms_for(operation, || second_rooms(&log));
    let mut desk = Desk::default();
    desk.read_policy(&log.policy).expect("a policy");
    let records = log.records;
    match operation {
        "decide" => Box::new(move |count| each(&records, count, |record| desk.decide(record))),
        "feed" => Box::new(move |count| {
            each(&records, count, |record| desk.feed(record, &mut room));
        }),
        "join" => Box::new(move |count| {
            times(count, || desk.join(&mut room, black_box(&other)));
        }),
        "finish" => Box::new(move |count| {
            times(count, || desk.finish(black_box(&room)).map(<[u8]>::len));
        }),
        _ => Box::new(move |count| times(count, || desk.restate().map(<[u8]>::len))),
    }
}

fn agree(log: &Log) {
    let policy = &log.policy;
    let mut allowed = 0;
    for record in &log.records {
        let found = muckposy::decide(policy, record);
        same(found, second::decide(policy, record));
        allowed += usize::from(found.is_ok_and(|found| found.outcome == Outcome::Allowed));
    }
    assert!(
        allowed * 3 >= log.records.len() * 2,
        "{}: {allowed}",
        log.name
    );
    let (room, other) = (proved_rooms(log).0, second_rooms(log).0);
    let [mut one, mut two] = [(); 2].map(|()| vec![0; RESULT]);
    let length = second::finish(policy, &other, &mut two);
    same(muckposy::finish(policy, &room, &mut one), length);
    assert!(length.is_ok() && one == two, "{}: finish", log.name);
    same(
        muckposy::restate(policy, &mut one),
        second::restate(policy, &mut two),
    );
    assert!(one == two, "{}: restate", log.name);
}

/// Answers have the same names on both sides.
fn same(one: impl Debug, two: impl Debug) {
    assert_eq!(format!("{one:?}"), format!("{two:?}"));
}
