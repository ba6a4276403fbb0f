//! Measures the proved code beside the second implementation, on the same bytes
//! in one run. docs/BENCH.md says how to read it.

mod counts;
mod found;
mod groups;
mod operations;
mod program;
mod scans;
mod stack;
mod tables;
mod texts;
mod times;

use std::process::exit;
use texts::Sample;

fn main() {
    let arguments: Vec<String> = std::env::args().skip(1).collect();
    let words: Vec<&str> = arguments.iter().map(String::as_str).collect();
    match words.as_slice() {
        ["tables"] => tables::scans(),
        ["operations"] => tables::operations(),
        ["functions"] => tables::functions(),
        ["program", records, rounds, programs @ ..] => program::print(records, rounds, programs),
        ["found", folder] => found::print(folder),
        ["faults"] => found::print_faults(),
        ["stack"] => stack::print(),
        ["texts"] => print_texts(),
        ["repeat", operation, texts, kernel, times] => repeat(operation, texts, kernel, times),
        _ => fail(
            "tables | operations | functions | program RECORDS ROUNDS PROGRAM .. | found FOLDER \
             | faults | stack | texts | repeat OPERATION TEXTS KERNEL TIMES",
        ),
    }
}

/// The texts themselves, to look at.
fn print_texts() {
    for sample in texts::samples() {
        println!("{}: {}", sample.name, sample.describe());
        for text in &sample.texts {
            println!("{}", String::from_utf8_lossy(text));
        }
    }
    for log in texts::logs() {
        println!("records under {}", log.name);
        for text in &log.records {
            println!("{}", String::from_utf8_lossy(text));
        }
    }
}

/// One kernel, so often: what instructions are counted of.
fn repeat(operation: &str, texts: &str, kernel: &str, times: &str) {
    let repeat = groups::find(operation, texts, kernel);
    match (repeat, times.parse()) {
        (Some(mut repeat), Ok(times)) => repeat(times),
        _ => fail("no such operation, texts or kernel, or not a number"),
    }
}

pub fn fail(message: &str) -> ! {
    eprintln!("{message}");
    exit(2);
}

impl Sample {
    fn describe(&self) -> String {
        let bytes = self.bytes();
        match self.texts.len() {
            1 => format!("1 text, {bytes} bytes"),
            count => format!("{count} texts, {} bytes each on average", bytes / count),
        }
    }
}
