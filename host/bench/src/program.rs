//! Whole programs on a long log: how long they take, and how much memory.

use crate::fail;
use crate::tables::part;
use crate::texts::{small_policy, small_request};
use second::generate::random::Random;
use std::fs::{self, File};
use std::io::{self, BufWriter, Write};
use std::path::{Path, PathBuf};
use std::process::{id, Child, Command, Stdio};
use std::thread::sleep;
use std::time::{Duration, Instant};

/// One record in so many is cut, as records are on their way.
const CUT: usize = 1_000;

/// What one run took: seconds on the clock, in the program and in the kernel, and
/// the most memory that it had, in KiB.
struct Run {
    wall: f64,
    user: f64,
    system: f64,
    memory: f64,
}

/// Runs the programs by turns, so often each, on a log of so many records.
pub fn print(records: &str, rounds: &str, programs: &[&str]) {
    let (Ok(records), Ok(rounds @ 1..)) = (records.parse(), rounds.parse::<usize>()) else {
        fail("RECORDS and ROUNDS are numbers");
    };
    let programs: Vec<PathBuf> = programs
        .iter()
        .map(|path| {
            Path::new(path)
                .canonicalize()
                .unwrap_or_else(|_| fail(path))
        })
        .collect();
    let folder = std::env::temp_dir().join(format!("muckposy-bench-{}", id()));
    fs::create_dir(&folder).expect("a folder for the log");
    let bytes = prepare(&folder, records).expect("the log can be written");
    println!("{records} records, {bytes} bytes, {rounds} rounds");
    println!();
    let runs = run_all(&folder, &programs, rounds);
    fs::remove_dir_all(&folder).expect("the folder is removed");
    println!("| Program | seconds | user | system | records/s | MB/s | KiB at most |");
    println!("|---|---:|---:|---:|---:|---:|---:|");
    for (path, runs) in programs.iter().zip(&runs) {
        let middle = |value: fn(&Run) -> f64| part(&runs.iter().map(value).collect::<Vec<_>>(), 2);
        let wall = middle(|run| run.wall);
        println!(
            "| {} | {wall:.1} | {:.1} | {:.1} | {:.0} | {:.0} | {:.0} |",
            path.file_name().unwrap_or_default().display(),
            middle(|run| run.user),
            middle(|run| run.system),
            records as f64 / wall,
            bytes as f64 / wall / 1e6,
            middle(|run| run.memory),
        );
    }
    if let [first, other, ..] = &runs[..] {
        let rounds = first.iter().zip(other);
        let ratio = |value: fn(&Run) -> f64| {
            let ratios: Vec<f64> = rounds
                .clone()
                .map(|(one, two)| value(one) / value(two))
                .collect();
            part(&ratios, 2)
        };
        let (wall, user) = (ratio(|run| run.wall), ratio(|run| run.user));
        println!("\nFirst against second: {wall:.2} on the clock, {user:.2} in user time.");
    }
}

/// Writes the policy and the log, and says how many bytes the log has.
fn prepare(folder: &Path, records: usize) -> io::Result<u64> {
    fs::write(folder.join("policy.json"), small_policy())?;
    let mut log = BufWriter::new(File::create(folder.join("log"))?);
    let mut random = Random::new(9);
    for number in 0..records {
        let record = small_request(number, &mut random);
        let length = match number % CUT {
            0 => random.below(record.len()),
            _ => record.len(),
        };
        log.write_all(&record[..length])?;
        log.write_all(b"\n")?;
    }
    Ok(log.into_inner()?.metadata()?.len())
}

/// The runs of each program. All have to print the same.
fn run_all(folder: &Path, programs: &[PathBuf], rounds: usize) -> Vec<Vec<Run>> {
    let mut runs: Vec<Vec<Run>> = programs.iter().map(|_| Vec::new()).collect();
    let mut printed = None;
    for _ in 0..rounds {
        for (program, runs) in programs.iter().zip(&mut runs) {
            let (run, output) = run(folder, program);
            runs.push(run);
            let expected = printed.get_or_insert_with(|| output.clone());
            assert!(*expected == output, "{} prints another", program.display());
        }
    }
    runs
}

fn run(folder: &Path, program: &Path) -> (Run, Vec<u8>) {
    let output = folder.join("output");
    let start = Instant::now();
    let child = Command::new(program)
        .current_dir(folder)
        .stdin(File::open(folder.join("log")).expect("the log is there"))
        .stdout(Stdio::from(File::create(&output).expect("an output")))
        .spawn()
        .expect("the program starts");
    let memory = watch(&child);
    let used = wait(child);
    let wall = start.elapsed().as_secs_f64();
    let seconds = |[whole, micros]: [i64; 2]| whole as f64 + micros as f64 / 1e6;
    let run = Run {
        wall,
        user: seconds(used.user),
        system: seconds(used.system),
        memory,
    };
    (run, fs::read(output).expect("the output is there"))
}

/// The most memory that a program has, asked for until it ends. What `wait4` says
/// of it begins with the memory of whoever started the program.
fn watch(child: &Child) -> f64 {
    let status = format!("/proc/{}/status", child.id());
    let mut most = 0.0;
    // An ended program has no such line.
    while let Some(memory) = peak(&fs::read_to_string(&status).unwrap_or_default()) {
        most = memory;
        sleep(Duration::from_millis(5));
    }
    most
}

fn peak(status: &str) -> Option<f64> {
    let line = status
        .lines()
        .find_map(|line| line.strip_prefix("VmHWM:"))?;
    line.trim().strip_suffix(" kB")?.parse().ok()
}

/// `struct rusage` of Linux on x86-64.
#[repr(C)]
#[derive(Default)]
struct Used {
    user: [i64; 2],
    system: [i64; 2],
    rest: [i64; 14],
}

extern "C" {
    fn wait4(process: i32, status: *mut i32, options: i32, used: *mut Used) -> i32;
}

/// Waits for the end of a program, and says what it used.
fn wait(child: Child) -> Used {
    let (mut status, mut used) = (0, Used::default());
    let process = child.id() as i32;
    // SAFETY: both are written by the call alone and are of the layout that
    // Linux gives them; nobody else waits for this child.
    let ended = unsafe { wait4(process, &mut status, 0, &mut used) };
    assert!(ended == process && status == 0, "the program failed");
    used
}
