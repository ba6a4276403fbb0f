//! What a service's build meets: a copy of this folder alone, without the
//! repository around it and without `rt`; and a repository whose `rt` only counts.

use crate::header::{package, runs, Folder};
use std::env;
use std::ffi::OsString;
use std::fs;
use std::os::unix::fs::symlink;
use std::path::{Path, PathBuf};
use std::process::Command;

/// A copy of a folder without what builds leave.
fn copy(from: &Path, to: &Path) {
    fs::create_dir_all(to).unwrap();
    for entry in fs::read_dir(from).unwrap() {
        let (from, name) = entry
            .map(|entry| (entry.path(), entry.file_name()))
            .unwrap();
        if name == "target" {
            continue;
        }
        if from.is_dir() {
            copy(&from, &to.join(name));
        } else {
            fs::copy(&from, to.join(name)).unwrap();
        }
    }
}

/// PATH without `rt`: of a folder that has one, links to all the rest.
fn path_without_rt(own: &Path) -> OsString {
    let all = env::var_os("PATH").unwrap_or_default();
    let folders = env::split_paths(&all).enumerate().map(|(number, folder)| {
        if !folder.join("rt").exists() {
            return folder;
        }
        let links = own.join(format!("links-{number}"));
        fs::create_dir(&links).unwrap();
        for entry in fs::read_dir(&folder).unwrap() {
            let name = entry.unwrap().file_name();
            if name != "rt" {
                symlink(folder.join(&name), links.join(&name)).unwrap();
            }
        }
        links
    });
    env::join_paths(folders).unwrap()
}

const SERVICE: &str = r##"
use muckposy::Room;

fn main() {
    let policy = br#"{"Version":"2012-10-17","Statement":[
        {"Effect":"Allow","Action":"s3:*","Resource":"arn:aws:s3:::gate/*"}]}"#;
    let mut room = Room::new();
    for place in ["north/1", "north/2"] {
        let record = format!(
            r#"{{"ActionNames":["s3:GetObject"],"ResourceArns":["arn:aws:s3:::gate/{place}"]}}"#
        );
        println!("{}", room.feed(policy, record.as_bytes()).unwrap());
    }
    println!("{}", String::from_utf8(room.finish(policy).unwrap()).unwrap());
}
"##;

const PRINTED: &str = concat!(
    "allowed by statement 1\n",
    "allowed by statement 1\n",
    r#"{"Version":"2012-10-17","Statement":[{"Effect":"Allow","#,
    r#""Action":["s3:GetObject"],"Resource":["arn:aws:s3:::gate/north/*"]}]}"#,
    "\n",
);

/// A copy of this folder, and a service that depends on it.
struct Downstream {
    folder: Folder,
    path: OsString,
}

impl Downstream {
    fn new(name: &str) -> Downstream {
        let folder = Folder::new(name);
        copy(&package(""), &folder.path().join("host"));
        let manifest = "[package]\nname = \"service\"\nedition = \"2021\"\n\n[workspace]\n\n\
                        [dependencies]\nmuckposy = { path = \"../host\" }\n";
        folder.file("service/Cargo.toml", manifest);
        folder.file("service/src/main.rs", SERVICE);
        let path = path_without_rt(folder.path());
        Downstream { folder, path }
    }

    /// Cargo in one of the two folders, for the target of this test or another.
    fn cargo(&self, place: &str, arguments: &[&str], target: &str) -> Command {
        let cargo = env::var_os("CARGO").unwrap_or_else(|| "cargo".into());
        let mut command = Command::new(cargo);
        command
            .args(arguments)
            .args(["--offline", "--target", target])
            .current_dir(self.folder.path().join(place))
            .env("CARGO_TARGET_DIR", self.folder.path().join("target"))
            .env("PATH", &self.path)
            .env_remove("MUCKPOSY_ARCHIVE");
        command
    }

    fn here(&self, place: &str, arguments: &[&str]) -> Command {
        self.cargo(place, arguments, env!("MUCKPOSY_LINKED_TARGET"))
    }

    fn program(&self) -> PathBuf {
        let built = self
            .folder
            .path()
            .join("target")
            .join(env!("MUCKPOSY_LINKED_TARGET"));
        built.join("debug/service")
    }
}

/// What a command says where it has to end well.
#[track_caller]
fn does(command: &mut Command) -> String {
    let done = command.output().expect("cargo runs");
    let said = String::from_utf8_lossy(&done.stderr).into_owned();
    assert!(done.status.success(), "{said}");
    said
}

/// What a command says where it has to fail; these words once.
#[track_caller]
fn fails(command: &mut Command, words: &str) -> String {
    let done = command.output().expect("cargo runs");
    let said = String::from_utf8_lossy(&done.stderr).into_owned();
    assert!(!done.status.success(), "{said}");
    assert_eq!(said.matches(words).count(), 1, "{words}\n{said}");
    said
}

#[test]
fn a_service_builds_from_a_copy_alone() {
    let trial = Downstream::new("alone");
    let archive = env!("MUCKPOSY_LINKED_ARCHIVE");
    let build = || trial.here("service", &["build"]);
    does(build().env("MUCKPOSY_ARCHIVE", archive));
    assert_eq!(runs(&trial.program()), PRINTED);

    let said = fails(&mut build(), "the proved archive is missing: ");
    assert!(said.contains("Set MUCKPOSY_ARCHIVE to "), "{said}");
    assert!(said.contains("install the Rattle kit"), "{said}");
    does(&mut trial.here("host", &["doc", "--no-deps", "--package", "muckposy"]));

    let text = trial.folder.file("text.a", "no archive");
    let none = trial.folder.path().join("none.a");
    for (file, words) in [
        (text, "which is no archive"),
        (none, "which cannot be read"),
    ] {
        fails(build().env("MUCKPOSY_ARCHIVE", file), words);
    }
    does(build().env("MUCKPOSY_ARCHIVE", archive));

    for target in [
        "aarch64-unknown-linux-gnu",
        "x86_64-pc-windows-gnu",
        "wasm32-unknown-unknown",
    ] {
        let mut build = trial.cargo("service", &["build"], target);
        let words = format!("is for x86-64 Linux, and this build is for {target}.");
        fails(build.env("MUCKPOSY_ARCHIVE", archive), &words);
    }
}

/// PATH with this `rt` before all others.
fn path_with_rt(folder: &Folder, text: &str, path: &OsString) -> OsString {
    let rt = folder.command("bin/rt", text);
    let mut with = rt.parent().expect("its folder").as_os_str().to_os_string();
    with.push(":");
    with.push(path);
    with
}

/// Every profile, the tests and the documentation find the one archive, and whoever
/// runs the build that proves sees it.
#[test]
fn one_archive_for_all_builds() {
    let mut trial = Downstream::new("once");
    let folder = &trial.folder;
    let list = "low:\nrefine: low\nrefine_c staticlib: low refine\n";
    folder.file("crates.txt", list);
    for name in ["low", "refine", "refine_c"] {
        folder.file(&format!("crates/{name}/src/lib.rt"), name);
    }
    let counting = format!(
        "[ \"$1\" = version ] && {{ echo counting; exit; }}\n\
         echo \"${{PWD##*/}}: $*\" >> ../../calls\n\
         echo 'crate low: modules loaded=0 checked=5'\necho 'logic=proved functions=1'\n\
         mkdir -p out && cp '{}' out/librefine_c.a\n",
        env!("MUCKPOSY_LINKED_ARCHIVE")
    );
    trial.path = path_with_rt(folder, &counting, &trial.path);
    let calls = || fs::read_to_string(trial.folder.path().join("calls")).unwrap();

    let said = does(&mut trial.here("service", &["build"]));
    let begun = "muckposy: proving crates/refine_c and the 2 crates below it; some minutes, once\n";
    assert!(said.contains(begun), "{said}");
    assert!(said.contains("muckposy: low proved, "), "{said}");
    assert_eq!(runs(&trial.program()), PRINTED);
    for arguments in [
        &["build"][..],
        &["build", "--release"],
        &["test", "--no-run"],
        &["doc", "--no-deps"],
        &["check"],
    ] {
        let said = does(&mut trial.here("service", arguments));
        assert!(!said.contains("proving"), "{arguments:?}: {said}");
    }
    assert_eq!(calls(), "refine_c: lib\n");

    trial.folder.file("crates/low/src/lib.rt", "lower");
    let said = does(&mut trial.here("service", &["build"]));
    assert!(said.contains(begun), "{said}");
    assert_eq!(calls().lines().count(), 2);
}

/// Stands for `rt` where `./dist` calls it: below the root, or in a crate's folder.
const HANDING: &str = r#"
name=${PWD##*/}
mkdir -p out
case $1 in
version) rmdir out; echo some kit 7 ;;
check)
    echo 'logic=proved functions=2'
    if [ "$name" = low ] && [ -e ../../broken ]; then echo logic=refused; exit; fi
    echo "logic=proved functions=1" ;;
run) echo program > out/muckposy ;;
lib) echo archive > "out/lib$name.a" ;;
esac
"#;

const GIVEN: &str = "dist refine LICENSE docs/RULES.md docs/REFUSALS.md docs/USING.md \
                     host/Cargo.toml host/include/muckposy.h";

const MADE: &str =
    "CHECK.txt LICENSE README.txt VERSION bin/muckposy docs/REFUSALS.md docs/RULES.md \
                    docs/USING.md include/muckposy.h lib/libmuckposy.a refine";

/// Four crates with what else `./dist` takes, and the command.
fn handing(folder: &Folder) -> Command {
    for name in GIVEN.split_whitespace() {
        folder.file(name, "");
        fs::copy(package("..").join(name), folder.path().join(name)).expect("a copy");
    }
    let list = "low:\nrefine: low\nrefine_c staticlib: low refine\nmuckposy: low refine io\n";
    folder.file("crates.txt", list);
    for name in ["low", "refine", "refine_c", "muckposy"] {
        folder.file(&format!("crates/{name}/src/lib.rt"), "");
    }
    let path = env::var_os("PATH").unwrap_or_default();
    let mut dist = Command::new("bash");
    dist.args(["dist", "made"])
        .env("PATH", path_with_rt(folder, HANDING, &path))
        .current_dir(folder.path());
    dist
}

/// The folder that is handed to a service's build, and that there is none where a
/// crate has no proof.
#[test]
fn what_dist_makes() {
    let folder = Folder::new("dist");
    let mut dist = handing(&folder);
    does(&mut dist);
    let made = folder.path().join("made");
    let mut sums = Command::new("sha256sum");
    does(sums.args(["--check", "SHA256SUMS"]).current_dir(&made));
    let read = |name: &str| fs::read_to_string(made.join(name)).expect("a file");
    let sums = read("SHA256SUMS");
    let names = sums.lines().filter_map(|line| line.split("  ").nth(1));
    assert!(names.eq(MADE.split_whitespace()), "{sums}");
    assert_eq!(read("VERSION").trim(), env!("CARGO_PKG_VERSION"));
    let line = "logic=proved functions=1";
    let names = ["low", "refine", "muckposy", "refine_c"];
    let check: String = names.map(|name| format!("{name}: {line}\n")).concat();
    let check = format!("some kit 7\n{check}");
    assert_eq!(read("CHECK.txt"), check);

    fs::remove_dir_all(&made).unwrap();
    folder.file("broken", "");
    fails(&mut dist, "target/log/low.check has no line of its proof");
    assert!(!made.exists());
}
