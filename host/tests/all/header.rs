//! The exported functions for C: the header says what the archive has, and a C
//! program is built with it and run.

use crate::runner::start;
use muckposy::{Reason, Room, RESULT_BYTES};
use std::env;
use std::fs;
use std::path::{Path, PathBuf};
use std::process::{self, Command};

/// A file of this package.
pub fn package(name: &str) -> PathBuf {
    Path::new(env!("CARGO_MANIFEST_DIR")).join(name)
}

fn read(name: &str) -> String {
    let path = package(name);
    fs::read_to_string(&path).unwrap_or_else(|error| panic!("{}: {error}", path.display()))
}

/// A folder of its own for a test, removed with it.
pub struct Folder {
    path: PathBuf,
}

impl Folder {
    pub fn new(name: &str) -> Folder {
        let path = env::temp_dir().join(format!("muckposy-{name}-{}", process::id()));
        fs::create_dir(&path).expect("a folder for the test");
        Folder { path }
    }

    pub fn path(&self) -> &Path {
        &self.path
    }

    pub fn file(&self, name: &str, text: &str) -> PathBuf {
        let path = self.path.join(name);
        fs::create_dir_all(path.parent().expect("a file stands in a folder")).unwrap();
        fs::write(&path, text).expect("the file is written");
        path
    }

    /// A command of the shell. Another process writes it: one that this process had
    /// open for writing could not be run while a test beside starts a command.
    pub fn command(&self, name: &str, text: &str) -> PathBuf {
        let source = self.file(&format!("{name}.text"), &format!("#!/bin/sh\n{text}"));
        let path = self.path.join(name);
        let write = r#"cat "$0" > "$1" && chmod +x "$1""#;
        let mut shell = Command::new("sh");
        let made = shell.args(["-c", write]).args([&source, &path]).status();
        assert!(made.expect("a shell").success());
        path
    }
}

impl Drop for Folder {
    fn drop(&mut self) {
        let _ = fs::remove_dir_all(&self.path);
    }
}

/// What a program for x86-64 prints.
pub fn runs(program: &Path) -> String {
    let done = start(program).output().expect("the program runs");
    assert!(done.status.success(), "{}", program.display());
    String::from_utf8(done.stdout).expect("it prints UTF-8")
}

/// The header without its remarks.
fn plain_header() -> String {
    let header = read("include/muckposy.h");
    let mut parts = header.split("/*");
    let first = parts.next().unwrap_or_default().to_string();
    parts.fold(first, |plain, part| {
        let (_, behind) = part.split_once("*/").expect("the remark's end");
        plain + behind
    })
}

/// The type in Rust.
fn of_c(kind: &str) -> &'static str {
    match kind {
        "const uint8_t *" => "*const u8",
        "uint8_t *" => "*mut u8",
        "const uint32_t *" => "*const u32",
        "uint32_t *" => "*mut u32",
        "uint64_t" => "u64",
        "size_t" => "usize",
        other => panic!("the header has a type {other}"),
    }
}

/// A function's name, and the types of its parameters in Rust with their names.
type Declared = (String, Vec<[String; 2]>);

/// Each function of the library behind this word, its parameters told by `part`.
fn declared(text: &str, word: &str, part: fn(&str) -> [String; 2]) -> Vec<Declared> {
    let function = |rest: &str| {
        let (name, rest) = rest.split_once('(')?;
        let (parameters, _) = rest.split_once(')')?;
        let parameters = parameters.split(',').map(str::trim);
        let parameters = parameters.filter(|parameter| !parameter.is_empty());
        Some((name.to_string(), parameters.map(part).collect()))
    };
    let all = text.split(word).skip(1).filter_map(function);
    all.filter(|(name, _)| name.starts_with("muckposy_"))
        .collect()
}

/// `name: TYPE`.
fn rust_parameter(text: &str) -> [String; 2] {
    let (name, kind) = text.split_once(": ").expect("a name and a type");
    [kind, name].map(str::to_string)
}

/// `TYPE name`, a star standing at the name.
fn c_parameter(text: &str) -> [String; 2] {
    let at = text.rfind([' ', '*']).expect("a type and a name") + 1;
    let kind = of_c(text[..at].trim_end());
    [kind, &text[at..]].map(str::to_string)
}

#[test]
fn the_header_declares_what_is_linked() {
    let (header, linked) = (plain_header(), read("src/linked.rs"));
    let in_rust = declared(&linked, "    fn ", rust_parameter);
    assert_eq!(in_rust.len(), 6);
    let in_c = declared(&header, "muckposy_reply ", c_parameter);
    assert_eq!(in_c, in_rust);
}

/// A slice of the exported function is a pointer and a length of the linked one.
#[test]
fn what_is_linked_is_exported() {
    let linked = read("src/linked.rs");
    let exports = read("../crates/refine_c/src/lib.rt");
    let types = |slice: &str| match slice {
        "&[u8]" => vec!["*const u8", "usize"],
        "&mut [u8]" => vec!["*mut u8", "usize"],
        "&[u32]" => vec!["*const u32", "usize"],
        "&mut [u32]" => vec!["*mut u32", "usize"],
        other => panic!("an exported function takes {other}"),
    };
    let linked = declared(&linked, "    fn ", rust_parameter);
    let exported = declared(&exports, r#"pub extern "C" fn "#, rust_parameter);
    assert_eq!(exported.len(), 6);
    assert_eq!(linked.len(), exported.len());
    for ((name, linked), (exported_name, slices)) in linked.iter().zip(&exported) {
        assert_eq!(name, exported_name);
        let linked: Vec<&str> = linked.iter().map(|[kind, _]| kind.as_str()).collect();
        let exported = slices.iter().flat_map(|[slice, _]| types(slice));
        assert_eq!(linked, exported.collect::<Vec<_>>(), "{name}");
    }
}

/// What stands between the two.
fn inside<'a>(text: &'a str, begin: &str, end: &str) -> &'a str {
    let (_, behind) = text.split_once(begin).expect("its begin");
    let (inner, _) = behind.split_once(end).expect("its end");
    inner
}

/// The fields of a reply, in order, in all three.
#[test]
fn one_reply() {
    let rust = |text: &str| -> Vec<String> {
        let lines = inside(text, "pub struct Reply {\n", "\n}").lines();
        lines.map(|line| line.trim().to_string()).collect()
    };
    let linked = rust(&read("src/linked.rs"));
    assert_eq!(linked.len(), 4);
    assert_eq!(rust(&read("../crates/refine/src/exports.rt")), linked);
    let header = plain_header();
    let lines = inside(&header, "typedef struct muckposy_reply {\n", "\n}").lines();
    let in_c = lines.filter_map(|line| {
        let (kind, name) = line.trim().strip_suffix(';')?.split_once(' ')?;
        Some(format!("pub {name}: {},", of_c(kind)))
    });
    assert_eq!(in_c.collect::<Vec<_>>(), linked);
}

/// `RoomLength` as `MUCKPOSY_ROOM_LENGTH`.
fn c_name(reason: Reason) -> String {
    let mut name = "MUCKPOSY".to_string();
    for letter in format!("{reason:?}").chars() {
        if letter.is_uppercase() {
            name.push('_');
        }
        name.push(letter.to_ascii_uppercase());
    }
    name
}

#[test]
fn the_header_has_the_numbers() {
    let header = read("include/muckposy.h");
    let lines = inside(&header, "enum muckposy_reason {\n", "\n};").lines();
    let lines = lines.map(|line| line.split_whitespace().collect::<Vec<_>>().join(" "));
    let said = Reason::ALL.iter().map(|&reason| {
        let comma = if Some(&reason) == Reason::ALL.last() {
            ""
        } else {
            ","
        };
        format!(
            "{} = {}{comma} /* {reason} */",
            c_name(reason),
            reason.number()
        )
    });
    assert_eq!(lines.collect::<Vec<_>>(), said.collect::<Vec<_>>());
    for (name, number) in [
        ("ROOM_NUMBERS", Room::NUMBERS),
        ("RESULT_BYTES", RESULT_BYTES),
    ] {
        let line = format!("#define MUCKPOSY_{name} {number}\n");
        assert!(header.contains(&line), "{line}");
    }
}

/// What the example in C prints.
const PRINTED: &str = concat!(
    "allowed, statement 1\n",
    "allowed, statement 1\n",
    "explicitly denied, statement 2\n",
    "implicitly denied, statement 0\n",
    "refused by 8 at 15\n",
    r#"{"Version":"2012-10-17","Statement":["#,
    r#"{"Effect":"Allow","Action":["s3:GetObject"],"Resource":["arn:aws:s3:::gate/north/*"]},"#,
    r#"{"Effect":"Deny","Action":["s3:Delete*"],"Resource":["*"]}]}"#,
    "\n",
);

/// The C compiler for x86-64: MUCKPOSY_CC, CC or cc.
fn compiler() -> Command {
    let named = ["MUCKPOSY_CC", "CC"]
        .iter()
        .find_map(|name| env::var(name).ok());
    let named = named.unwrap_or_else(|| "cc".to_string());
    let mut words = named.split_whitespace();
    let mut command = Command::new(words.next().expect("a compiler"));
    command.args(words);
    command
}

#[test]
fn a_program_in_c() {
    let folder = Folder::new("c");
    let program = folder.path().join("gate");
    let built = compiler()
        .args([
            "-std=c99",
            "-Wall",
            "-Wextra",
            "-Wpedantic",
            "-Werror",
            "-I",
        ])
        .arg(package("include"))
        .arg(package("examples/c/gate.c"))
        .arg(env!("MUCKPOSY_LINKED_ARCHIVE"))
        .arg("-o")
        .arg(&program)
        .output()
        .expect("a C compiler: MUCKPOSY_CC, CC or cc names one");
    assert!(
        built.status.success(),
        "{}",
        String::from_utf8_lossy(&built.stderr)
    );
    assert_eq!(runs(&program), PRINTED);
}
