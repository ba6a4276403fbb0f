//! Logs cut into parts that are walked side by side, as the examples do it: in
//! any order and with repeats they come to what one walk comes to.

use crate::cut::cut;
use crate::save::{load, save};
use crate::walk::{walk, Walked};
use muckposy::{decide, Outcome, Room};
use second::generate::damage::damage_record;
use second::generate::random::Random;
use second::generate::share::share;
use second::generate::{planner, render, requests};
use std::collections::BTreeMap;
use std::fs;
use std::io::Cursor;
use std::path::Path;
use std::sync::mpsc;
use std::thread;

/// The texts of a log's parts.
fn cut_texts(log: &[u8], parts: u64) -> Vec<&[u8]> {
    let places = cut(&mut Cursor::new(log), parts).expect("memory can be read");
    let texts = places
        .iter()
        .map(|part| &log[part.start as usize..part.end as usize]);
    texts.collect()
}

/// Walks each part by a thread, and hands the rooms on as bytes. The parts are
/// given in the order in which they arrive.
fn arrived(policy: &[u8], parts: &[&[u8]]) -> Vec<Walked> {
    thread::scope(|scope| {
        let (send, arriving) = mpsc::channel();
        for part in parts {
            let send = send.clone();
            scope.spawn(move || {
                let walked = walk(policy, *part).expect("a policy that is read");
                let sent = send.send((walked.room.to_bytes(), walked.refused));
                sent.expect("the parts are waited for");
            });
        }
        drop(send);
        let walked = arriving.iter().map(|(saved, refused)| Walked {
            room: Room::from_bytes(&saved).expect("a whole room"),
            refused,
        });
        walked.collect()
    })
}

fn joined<'a>(policy: &[u8], parts: impl IntoIterator<Item = &'a Walked>) -> Walked {
    let mut whole = Walked::default();
    for part in parts {
        whole.join(policy, part).expect("rooms of this policy");
    }
    whole
}

/// However it is cut and joined, the log comes to the room of one walk.
fn every_way(policy: &[u8], log: &[u8], seed: u64) -> Walked {
    let mut random = Random::new(seed);
    let once = walk(policy, log).expect("a policy that is read");
    for count in 1..=8 {
        let mut parts = arrived(policy, &cut_texts(log, count));
        assert_eq!(joined(policy, &parts), once, "{count} parts as they arrive");
        for _ in 0..4 {
            random.shuffle(&mut parts);
            assert_eq!(joined(policy, &parts), once, "{count} parts shuffled");
        }
        // A repeat counts its refusals again, and charges nothing new.
        let again = random.below(parts.len());
        let repeated = joined(policy, parts.iter().chain([&parts[again], &parts[0]]));
        assert!(repeated.room == once.room, "{count} parts and repeats");
        let mut twice = once.clone();
        twice.join(policy, &repeated).expect("rooms of this policy");
        assert!(twice.room == once.room, "the whole and its parts");
    }
    once
}

/// An example's log, walked in every way, comes to what is expected of it.
fn walked_as_expected(folder: &str, log: &str) {
    let examples = Path::new(env!("CARGO_MANIFEST_DIR")).join("../examples");
    let folder = examples.join(folder);
    let read = |name: &str| fs::read(folder.join(name)).expect("the example is whole");
    let policy = read("policy.json");
    let walked = every_way(&policy, &read(log), 1);
    assert_eq!(walked.refused, BTreeMap::from([(8, 2)]));
    let expected = read("expected.txt");
    let last = expected.trim_ascii_end().rsplit(|&byte| byte == b'\n');
    let refined = walked.room.finish(&policy).expect("a refined policy");
    assert_eq!(Some(&refined[..]), last.into_iter().next());
}

#[test]
fn the_night_of_the_gate() {
    walked_as_expected("gate", "night.log");
}

#[test]
fn the_days_of_the_gate() {
    walked_as_expected("days", "gate.log");
}

/// What is written lets the gate in on other days too: no date is left in it.
#[test]
fn later_days_of_the_gate() {
    let folder = Path::new(env!("CARGO_MANIFEST_DIR")).join("../examples/days");
    let read = |name: &str| fs::read_to_string(folder.join(name)).expect("the example is whole");
    let (policy, printed) = (read("policy.json"), read("expected.txt"));
    let refined = printed.lines().last().expect("a refined policy");
    let allows = |policy: &str, record: &str| {
        let decision = decide(policy.as_bytes(), record.as_bytes());
        decision.is_ok_and(|decision| decision.outcome == Outcome::Allowed)
    };
    let log = read("gate.log");
    let used = log.lines().filter(|record| allows(&policy, record));
    let later = used.map(|record| {
        record
            .replace("2025-", "2031-")
            .replace("2026-01", "2040-12")
    });
    let later: Vec<String> = later.collect();
    assert_eq!(later.len(), 45);
    for record in later {
        assert!(allows(refined, &record), "{record}");
    }
}

/// Some thousand generated records, one in fifty of them damaged.
fn long_log(random: &mut Random) -> (Vec<u8>, Vec<u8>) {
    let plan = planner::policy(random);
    let policy = render::policy(&plan, random);
    let mut log = Vec::new();
    for _ in 0..share(2_000) {
        let record = render::record(&requests::record(&plan, random), random);
        let damaged = random.chance(1, 50).then(|| damage_record(&record, random));
        let line = damaged.unwrap_or(record);
        // Records are spelled with any white space; one has to stay on its line.
        log.extend(line.into_iter().map(|byte| match byte {
            b'\n' => b' ',
            other => other,
        }));
        log.push(b'\n');
    }
    (policy, log)
}

#[test]
fn long_logs() {
    let mut written = 0;
    for seed in 0..4 {
        let (policy, log) = long_log(&mut Random::new(seed));
        let walked = every_way(&policy, &log, seed);
        let mut output = Vec::new();
        second::run_program(Some(&policy), &log[..], &mut output).expect("writing to memory");
        let refused = output.split(|&byte| byte == b'\n').count() - 2;
        assert_eq!(walked.refused.values().sum::<u64>(), refused as u64);
        if let Ok(mut refined) = walked.room.finish(&policy) {
            refined.push(b'\n');
            assert!(output.ends_with(&refined), "seed {seed}");
            written += 1;
        }
    }
    assert!(written >= 2, "{written} logs were refined");
}

/// Parts stand one behind the other, and all but the last end where a line does.
#[test]
fn cuts_are_ends_of_lines() {
    let long = "x".repeat(9_000);
    let logs = ["", "\n", "a", "a\n", "\n\n\n", "a\nbb\r\n\nccc", &long];
    let longer = logs.map(|log| format!("{log}{long}\n{log}"));
    for log in logs.into_iter().chain(longer.iter().map(String::as_str)) {
        for count in 1..=9 {
            let parts = cut_texts(log.as_bytes(), count);
            assert_eq!(parts.len() as u64, count);
            assert_eq!(parts.concat(), log.as_bytes());
            let ended = parts.iter().filter(|part| !part.is_empty());
            let open = ended.filter(|part| part.last() != Some(&b'\n')).count();
            let last_is_open = !log.is_empty() && !log.ends_with('\n');
            assert_eq!(open, usize::from(last_is_open), "{count} parts");
        }
    }
    assert_eq!(
        cut_texts(b"aaaa\nb\nc\n", 3),
        [&b"aaaa\n"[..], b"b\n", b"c\n"]
    );
}

/// Lines are read as the program reads them.
#[test]
fn lines_of_any_kind() {
    let policy = trials::texts::policy(trials::texts::ALLOW);
    let record = trials::texts::record("");
    let [exact, over, far] = [8_192, 8_193, 70_000].map(|n| trials::texts::padded(&record, n));
    let log = format!("\n{record}\r\n{exact}\n{over}\n[\n{{}}\n\n{far}\n{over}");
    let walked = walk(policy.as_bytes(), log.as_bytes()).expect("a policy that is read");
    assert_eq!(walked.refused, BTreeMap::from([(7, 3), (8, 1), (9, 1)]));
    assert!(walked.room.finish(policy.as_bytes()).is_ok());
    let trouble = walk(b"{", log.as_bytes()).expect_err("no policy at all");
    assert!(trouble.to_string().starts_with("refused by 3"));
}

#[test]
fn rooms_in_files() {
    let policy = trials::texts::policy(trials::texts::ALLOW);
    let record = trials::texts::record("");
    let room = walk(policy.as_bytes(), record.as_bytes()).expect("a policy that is read");
    let folder = std::env::temp_dir().join(format!("muckposy-rooms-{}", std::process::id()));
    fs::create_dir(&folder).expect("a folder for the rooms");
    let path = folder.join("1.room");
    for room in [Room::new(), room.room] {
        save(&room, &path).expect("the room is saved");
        assert!(load(&path).expect("the room is there") == room);
    }
    let files = fs::read_dir(&folder).expect("the folder is there").count();
    assert_eq!(files, 1, "nothing else is left");
    fs::write(&path, [0; 100]).expect("the file is cut");
    assert!(load(&path).is_err());
    assert!(load(&folder.join("2.room")).is_err());
    assert!(save(&Room::new(), &folder.join("none/3.room")).is_err());
    fs::remove_dir_all(&folder).expect("the folder is removed");
}
