//! The program, as a function and as it is started.

use crate::common::*;
use second::run_program;
use std::io::{BufReader, Write};
use std::process::{Command, Stdio};

const GATE: &str = r#"{"Version":"2012-10-17","Statement":[{"Effect":"Allow","Action":"s3:*","Resource":"arn:aws:s3:::gate/*"}]}"#;

fn run(policy: Option<&[u8]>, input: &[u8]) -> String {
    let mut output = Vec::new();
    // A small buffer, so that lines are met in pieces.
    let input = BufReader::with_capacity(7, input);
    run_program(policy, input, &mut output).unwrap();
    String::from_utf8(output).unwrap()
}

fn gate(rest: &str) -> String {
    record("s3:GetObject", &format!("arn:aws:s3:::gate/{rest}"))
}

const EXAMPLE_OUTPUT: &str = concat!(
    "line 2 refused 8 at 1\n",
    r#"{"Version":"2012-10-17","Statement":[{"Effect":"Allow","Action":["s3:GetObject"],"Resource":["arn:aws:s3:::gate/north/\u00e9*"]}]}"#,
    "\n",
);

#[test]
fn whole_example() {
    let input = format!("{}\n{{\n{}\n", gate("north/é1"), gate("north/é2"));
    assert_eq!(run(Some(GATE.as_bytes()), input.as_bytes()), EXAMPLE_OUTPUT);
    let unended = input.trim_end();
    assert_eq!(
        run(Some(GATE.as_bytes()), unended.as_bytes()),
        EXAMPLE_OUTPUT
    );
}

#[test]
fn refused_policies() {
    assert_eq!(run(None, b"{}\n"), "no policy\n");
    assert_eq!(run(Some(b""), b"{}\n"), "refused 3 at 0\n");
    assert_eq!(run(Some(b"{}"), b"{\n"), "refused 4 at 0\n");
    assert_eq!(run(Some(b"{\"a\" 1}"), b""), "refused 3 at 5\n");
    assert_eq!(run(Some(&padded(GATE, 16_385)), b""), "refused 2 at 0\n");
    let limit = policy(&vec![statement("Allow", "\"*\"", "\"*\""); 17]);
    assert_eq!(run(Some(limit.as_bytes()), b""), "refused 5 at 0\n");
}

#[test]
fn no_result() {
    assert_eq!(run(Some(GATE.as_bytes()), b""), "refused 10 at 0\n");
    assert_eq!(run(Some(GATE.as_bytes()), b"\n\n"), "refused 10 at 0\n");
    let long = format!("\"arn:::::{}\"", "é".repeat(240));
    let denied = statement("Deny", "\"z:z\"", &format!("[{}]", vec![long; 6].join(",")));
    let text = policy(&[statement("Allow", "\"*\"", "\"*\""), denied]);
    assert_eq!(
        run(Some(text.as_bytes()), gate("a").as_bytes()),
        "refused 11 at 0\n"
    );
}

#[test]
fn lines() {
    let good = gate("a");
    let result = allow("[\"s3:GetObject\"]", "[\"arn:aws:s3:::gate/a\"]") + "\n";
    let cases: [(Vec<u8>, &str); 9] = [
        (b"\n\n[]\n".to_vec(), "line 3 refused 9 at 0\n"),
        (b"\r\n".to_vec(), "line 1 refused 8 at 1\n"),
        (
            b" \n\n \r\n".to_vec(),
            "line 1 refused 8 at 1\nline 3 refused 8 at 2\n",
        ),
        (b"{\"a\":\xff}\n".to_vec(), "line 1 refused 8 at 5\n"),
        (b"{}{}\n".to_vec(), "line 1 refused 8 at 2\n"),
        (format!("{good}\r\n").into_bytes(), ""),
        ([padded(&good, 8_192), b"\n".to_vec()].concat(), ""),
        (
            [padded(&good, 8_193), b"\n{\n".to_vec()].concat(),
            "line 1 refused 7 at 0\nline 2 refused 8 at 1\n",
        ),
        (
            [padded(&good, 30_000), b"\n\n{".to_vec()].concat(),
            "line 1 refused 7 at 0\nline 3 refused 8 at 1\n",
        ),
    ];
    for (lines, complaints) in cases {
        let with_good = [&lines[..], b"\n", good.as_bytes()].concat();
        assert_eq!(
            run(Some(GATE.as_bytes()), &with_good),
            format!("{complaints}{result}")
        );
    }
    // The last line without an end, at the limit and past it.
    assert_eq!(run(Some(GATE.as_bytes()), &padded(&good, 8_192)), result);
    let over = run(Some(GATE.as_bytes()), &padded(&good, 8_193));
    assert_eq!(over, "line 1 refused 7 at 0\nrefused 10 at 0\n");
}

/// Starts the program in a directory of its own.
fn start(directory: &std::path::Path, input: &[u8]) -> String {
    let mut child = Command::new(env!("CARGO_BIN_EXE_second-refine"))
        .current_dir(directory)
        .stdin(Stdio::piped())
        .stdout(Stdio::piped())
        .spawn()
        .unwrap();
    // The program may end without reading; then writing fails, as it should.
    let _ = child.stdin.take().unwrap().write_all(input);
    let output = child.wait_with_output().unwrap();
    assert!(output.status.success());
    String::from_utf8(output.stdout).unwrap()
}

#[test]
fn started() {
    let directory = std::path::Path::new(env!("CARGO_TARGET_TMPDIR")).join("started");
    // An interrupted run may have left the directory behind.
    let _ = std::fs::remove_dir_all(&directory);
    std::fs::create_dir_all(&directory).unwrap();
    let file = directory.join("policy.json");
    assert_eq!(start(&directory, b"{}\n"), "no policy\n");
    std::fs::write(&file, GATE).unwrap();
    let input = format!("{}\n{{\n{}", gate("north/é1"), gate("north/é2"));
    assert_eq!(start(&directory, input.as_bytes()), EXAMPLE_OUTPUT);
    std::fs::write(&file, padded(GATE, 40_000)).unwrap();
    assert_eq!(start(&directory, input.as_bytes()), "refused 2 at 0\n");
    // An empty file is a policy, though refused; what cannot be read is none.
    std::fs::write(&file, "").unwrap();
    assert_eq!(start(&directory, b""), "refused 3 at 0\n");
    std::fs::remove_file(&file).unwrap();
    std::fs::create_dir(&file).unwrap();
    assert_eq!(start(&directory, b""), "no policy\n");
    std::fs::remove_dir(&file).unwrap();
}
