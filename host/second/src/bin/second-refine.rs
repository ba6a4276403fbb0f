//! Refines policy.json in the working directory by the records on standard
//! input, and prints the result.

#![forbid(unsafe_code)]

use std::io::{self, BufWriter};
use std::path::Path;

fn main() -> io::Result<()> {
    let policy = second::read_policy_file(Path::new("policy.json"));
    let output = BufWriter::new(io::stdout().lock());
    second::run_program(policy.as_deref(), io::stdin().lock(), output)
}
