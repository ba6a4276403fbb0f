//! Policies as they are found, and texts that are refused: every operation that
//! reads a policy, by the proved library and by the second implementation.

use crate::fail;
use crate::groups::{Group, Kernel, Repeat};
use crate::tables::part;
use crate::texts::{self, Log};
use crate::times;
use std::fs;
use std::hint::black_box;
use std::path::Path;

/// So many rounds for each text.
const ROUNDS: usize = 101;
const OPERATIONS: [&str; 3] = ["decide", "feed", "restate"];
/// Refusals of a policy text.
const OF_POLICY: std::ops::RangeInclusive<u32> = 2..=5;

/// One text, and what it is called.
struct Text {
    name: String,
    bytes: Vec<u8>,
}

/// The policies of a folder, those that are read and those that are refused.
pub fn print(folder: &str) {
    let (refused, read): (Vec<Text>, Vec<Text>) = files(folder).into_iter().partition(is_refused);
    println!("| Policies | Operation | least | middle | most | most on |");
    println!("|---|---|---:|---:|---:|---|");
    for (kind, texts) in [("read", &read), ("refused", &refused)] {
        for operation in OPERATIONS {
            print_row(kind, operation, texts);
        }
    }
}

/// Faults in the small policies of the tables, one to a row.
pub fn print_faults() {
    println!("| Policy | Fault | refusal | proved ns | second ns | proved against second |");
    println!("|---|---|---:|---:|---:|---:|");
    for log in texts::logs() {
        if log.name == "policy-2k" || log.name == "sorted-1k" {
            for text in faults(&log.policy) {
                print_fault(log.name, &text);
            }
        }
    }
}

fn print_row(kind: &str, operation: &'static str, texts: &[Text]) {
    let mut ratios: Vec<(f64, &str)> = texts
        .iter()
        .map(|text| (measured(operation, &text.bytes).2, text.name.as_str()))
        .collect();
    ratios.sort_by(|one, other| one.0.total_cmp(&other.0));
    let (Some(least), Some(most)) = (ratios.first(), ratios.last()) else {
        return;
    };
    println!(
        "| {} {kind} | {operation} | {:.2} | {:.2} | {:.2} | {} |",
        ratios.len(),
        least.0,
        ratios[ratios.len() / 2].0,
        most.0,
        most.1
    );
}

fn print_fault(policy: &str, text: &Text) {
    let refusal = second::restate(&text.bytes, &mut []).expect_err("a fault");
    let (proved, second, ratio) = measured("restate", &text.bytes);
    println!(
        "| {policy} | {} | {} | {proved:.0} | {second:.0} | {ratio:.2} |",
        text.name, refusal.number
    );
}

/// Nanoseconds of the two, and the median of the rounds' ratios.
fn measured(operation: &'static str, policy: &[u8]) -> (f64, f64, f64) {
    let Log { records, .. } = texts::logs().swap_remove(0);
    let record = records[0].clone();
    agree(policy, &record);
    let mut group = Group {
        operation,
        texts: "found",
        calls: 1,
        bytes: policy.len() as f64,
        kernels: vec![
            proved(operation, policy.to_vec(), record.clone()),
            second(operation, policy.to_vec(), record),
        ],
    };
    let times = times::measure_in(&mut group, ROUNDS);
    let ratios = times[0].iter().zip(&times[1]).map(|(one, two)| one / two);
    (
        part(&times[0], 2),
        part(&times[1], 2),
        part(&ratios.collect::<Vec<_>>(), 2),
    )
}

macro_rules! kernels {
    ($library:ident, $kernel:ident, $name:literal) => {
        fn $kernel(operation: &str, policy: Vec<u8>, record: Vec<u8>) -> Kernel {
            let mut room = vec![0; 16_384];
            let mut output = vec![0; 6_144];
            let repeat: Repeat = match operation {
                "decide" => Box::new(move |count| {
                    for _ in 0..count {
                        let _ = black_box($library::decide(black_box(&policy), &record));
                    }
                }),
                "feed" => Box::new(move |count| {
                    for _ in 0..count {
                        let _ = black_box($library::feed(black_box(&policy), &record, &mut room));
                    }
                }),
                _ => Box::new(move |count| {
                    for _ in 0..count {
                        let _ = black_box($library::restate(black_box(&policy), &mut output));
                    }
                }),
            };
            Kernel {
                name: $name,
                repeat,
            }
        }
    };
}

kernels!(muckposy, proved, "proved");
kernels!(second, second, "second");

/// What is measured has to be the same work.
fn agree(policy: &[u8], record: &[u8]) {
    let [mut one, mut two] = [(); 2].map(|()| vec![0; 6_144]);
    let proved =
        muckposy::restate(policy, &mut one).map_err(|refusal| (refusal.number, refusal.place));
    let second =
        second::restate(policy, &mut two).map_err(|refusal| (refusal.number, refusal.place));
    assert_eq!((proved, one), (second, two));
    let proved = muckposy::decide(policy, record).map_err(|refusal| refusal.number);
    let second = second::decide(policy, record).map_err(|refusal| refusal.number);
    assert_eq!(
        proved.map(|found| found.statement),
        second.map(|found| found.statement)
    );
}

fn is_refused(text: &Text) -> bool {
    let refusal = second::restate(&text.bytes, &mut []).err();
    refusal.is_some_and(|refusal| OF_POLICY.contains(&refusal.number))
}

fn files(folder: &str) -> Vec<Text> {
    let read = |path: &Path| Text {
        name: path
            .file_stem()
            .unwrap_or_default()
            .to_string_lossy()
            .into(),
        bytes: fs::read(path).unwrap_or_else(|error| fail(&format!("{}: {error}", path.display()))),
    };
    let entries = fs::read_dir(folder).unwrap_or_else(|error| fail(&format!("{folder}: {error}")));
    let mut paths: Vec<_> = entries.flatten().map(|entry| entry.path()).collect();
    paths.retain(|path| {
        path.extension()
            .is_some_and(|extension| extension == "json")
    });
    paths.sort();
    paths.iter().map(|path| read(path)).collect()
}

/// The policy with one fault: where it breaks, and where it is against the
/// layout or over a limit.
fn faults(policy: &[u8]) -> Vec<Text> {
    let text = String::from_utf8(policy.to_vec()).expect("UTF-8");
    let cut = |name: &str, length: usize| Text {
        name: name.into(),
        bytes: policy[..length].to_vec(),
    };
    let put = |name: &str, old: &str, new: &str| {
        let at = text.rfind(old).expect("what the fault replaces");
        Text {
            name: name.into(),
            bytes: [&text[..at], new, &text[at + old.len()..]].concat().into(),
        }
    };
    let comma = |name: &str, at: usize| {
        let at = at + text[at..].find(',').expect("a comma");
        Text {
            name: name.into(),
            bytes: [&text[..at], ",", &text[at..]].concat().into(),
        }
    };
    vec![
        cut("nothing but its first byte", 1),
        Text {
            name: "another second byte".into(),
            bytes: [&text[..1], "x", &text[2..]].concat().into(),
        },
        cut("cut off in the middle", policy.len() / 2),
        cut("last byte cut off", policy.trim_ascii_end().len() - 1),
        comma("a comma too many in the middle", policy.len() / 2),
        comma(
            "a comma too many in the last statement",
            text.rfind("Effect").expect("an effect"),
        ),
        put("another Version", "2012-10-17", "2008-10-17"),
        put(
            "another member in the last statement",
            "\"Resource\"",
            "\"NotResource\"",
        ),
        put(
            "another Effect in the last statement",
            "\"Allow\"",
            "\"Perhaps\"",
        ),
        put(
            "an action without a colon in the last statement",
            "s3:",
            "s3",
        ),
        put("another operator", "\"StringLike\"", "\"ArnLike\""),
    ]
}
