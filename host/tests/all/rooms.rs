//! The example `room` from its arguments to its exit status: rooms saved with
//! their stamps, counted, compared and joined.

use crate::desk;
use muckposy::Room;
use std::ffi::OsString;
use std::fs;
use std::io::{self, BufReader, Read, Write};
use std::path::PathBuf;
use std::sync::atomic::{AtomicUsize, Ordering};

const POLICY: &str = r#"{"Version":"2012-10-17","Statement":{"Effect":"Allow","Action":"s3:*","Resource":"arn:aws:s3:::gate/*"}}"#;

/// The same role, so that its rooms fit; only a stamp tells them apart.
const SPACED: &str = r#"{"Version":"2012-10-17","Statement":{"Effect":"Allow","Action":"s3:*","Resource":"arn:aws:s3:::gate/*"} }"#;

const GET: &str =
    r#"{"ActionNames":["s3:GetObject"],"ResourceArns":["arn:aws:s3:::gate/north/1"]}"#;
const PUT: &str =
    r#"{"ActionNames":["s3:PutObject"],"ResourceArns":["arn:aws:s3:::gate/north/2"]}"#;

/// What the two come to.
const REFINED: &str = r#"{"Version":"2012-10-17","Statement":[{"Effect":"Allow","Action":["s3:*"],"Resource":["arn:aws:s3:::gate/north/*"]}]}
"#;

/// A folder of its own, with the policy and the rooms of two parts.
struct Place(PathBuf);

impl Place {
    fn new() -> Place {
        static NEXT: AtomicUsize = AtomicUsize::new(0);
        let number = NEXT.fetch_add(1, Ordering::Relaxed);
        let name = format!("muckposy-rooms-{}-{number}", std::process::id());
        let place = Place(std::env::temp_dir().join(name));
        fs::create_dir(&place.0).expect("a folder for the rooms");
        place.write("policy", POLICY);
        place.run("policy a.room", GET).is(0, "", "");
        place.run("policy b.room", PUT).is(0, "", "");
        place
    }

    fn path(&self, name: &str) -> PathBuf {
        self.0.join(name)
    }

    fn write(&self, name: &str, text: impl AsRef<[u8]>) {
        fs::write(self.path(name), text).expect("a file is written");
    }

    fn remove(&self, name: &str) {
        fs::remove_file(self.path(name)).expect("a file is removed");
    }

    /// The names of all files, in order.
    fn names(&self) -> Vec<String> {
        let files = fs::read_dir(&self.0).expect("the folder is there");
        let name = |file: io::Result<fs::DirEntry>| file.expect("a file").file_name();
        let mut names: Vec<OsString> = files.map(name).collect();
        names.sort();
        let names = names.into_iter().map(OsString::into_string);
        names.map(|name| name.expect("a plain name")).collect()
    }

    /// Words other than options and numbers are files of the folder.
    fn words(&self, words: &str) -> Vec<OsString> {
        let word = |word: &str| match word {
            plain if plain.starts_with('-') || plain.parse::<i64>().is_ok() => plain.into(),
            name => self.path(name).into_os_string(),
        };
        words.split_whitespace().map(word).collect()
    }

    fn run(&self, words: &str, part: &str) -> Ran {
        let (mut output, mut errors) = (Vec::new(), Vec::new());
        let words = self.words(words);
        let status = desk::run(words, part.as_bytes(), &mut output, &mut errors);
        let text = |bytes| String::from_utf8(bytes).expect("text");
        let folder = format!("{}/", self.0.display());
        Ran {
            status,
            output: text(output),
            errors: text(errors).replace(&folder, ""),
        }
    }
}

impl Drop for Place {
    fn drop(&mut self) {
        // What is left stands in the system's folder for such files.
        let _ = fs::remove_dir_all(&self.0);
    }
}

/// How a run ended; paths are told without the folder.
#[derive(Debug)]
struct Ran {
    status: u8,
    output: String,
    errors: String,
}

impl Ran {
    #[track_caller]
    fn is(&self, status: u8, output: &str, errors: &str) {
        let told = (self.status, self.output.as_str(), self.errors.as_str());
        assert_eq!(told, (status, output, errors));
    }

    /// Without a result; the words begin so, whatever the system adds.
    #[track_caller]
    fn fails(&self, status: u8, errors: &str) {
        assert_eq!(
            (self.status, self.output.as_str()),
            (status, ""),
            "{self:?}"
        );
        assert!(self.errors.starts_with(errors), "{self:?}");
    }
}

#[test]
fn a_room_and_its_stamp() {
    let place = Place::new();
    let files = [
        "a.room",
        "a.room.policy",
        "b.room",
        "b.room.policy",
        "policy",
    ];
    assert_eq!(place.names(), files);
    let stamp = fs::read(place.path("a.room.policy")).expect("the stamp is there");
    assert_eq!(stamp, POLICY.as_bytes());
    let saved = fs::metadata(place.path("a.room")).expect("the room is there");
    assert_eq!(saved.len(), Room::BYTES as u64);
    place
        .run("policy --join a.room b.room", "")
        .is(0, REFINED, "");
    place
        .run("policy b.room --join a.room", "")
        .is(0, REFINED, "");
}

#[test]
fn refused_records_are_counted_with_their_meaning() {
    let place = Place::new();
    let wide = "x".repeat(9_000);
    let part = format!("{{\n{GET}\n{wide}\n[[\n{{}}\n");
    place.run("policy a.room", &part).is(
        0,
        "",
        "1 record refused by 7: the record is longer than 8,192 bytes\n\
         2 records refused by 8: the record is not a JSON text in UTF-8\n\
         1 record refused by 9: the record is JSON, but not laid out as a record or over a limit\n",
    );
    place
        .run("policy --join a.room b.room", "")
        .is(0, REFINED, "");
}

#[test]
fn as_many_rooms_as_expected() {
    let place = Place::new();
    let both = "policy --join a.room b.room --expect 2";
    place.run(both, "").is(0, REFINED, "");
    let given = |given, expected| {
        format!("room: rooms given: {given}, expected: {expected}; nothing was joined\n")
    };
    let one = place.run("policy --join --expect 2 a.room", "");
    one.is(1, "", &given(1, 2));
    let more = place.run("policy --join --expect 1 a.room b.room", "");
    more.is(1, "", &given(2, 1));
    // It is said before a file is opened: none of these is there.
    let none = place.run("nowhere --join --expect 3 c.room d.room", "");
    none.is(1, "", &given(2, 3));
}

#[test]
fn a_room_given_twice() {
    let place = Place::new();
    let twice = "a.room: this room is given twice, so another may be missing\n";
    let warned = format!("room: warning: {twice}");
    let join = "policy --join b.room a.room a.room";
    place.run(join, "").is(0, REFINED, &warned);
    let refused = format!("room: {twice}");
    let expecting = place.run(&format!("{join} --expect 3"), "");
    expecting.is(1, "", &refused);
    // However its path is spelled.
    fs::create_dir(place.path("in")).expect("a folder beside the rooms");
    let spelled = place.run("policy --join a.room in/../a.room --expect 2", "");
    spelled.fails(1, "room: in/../a.room: this room is given twice");
}

#[test]
fn the_stamp_of_another_policy() {
    let place = Place::new();
    place.write("spaced", SPACED);
    place.run("spaced b.room", PUT).is(0, "", "");
    let other = "room: b.room.policy: this stamp is another policy's, so its room is not joined\n";
    for join in [
        "policy --join a.room b.room",
        "policy --join --unstamped a.room b.room",
    ] {
        place.run(join, "").is(1, "", other);
    }
    // Nothing but the stamp stood in the way.
    place.write("b.room.policy", POLICY);
    place
        .run("policy --join a.room b.room", "")
        .is(0, REFINED, "");
}

#[test]
fn a_room_without_a_stamp() {
    let place = Place::new();
    place.remove("b.room.policy");
    let missing =
        "room: b.room.policy: this stamp is missing, so its room is not joined without --unstamped\n";
    place
        .run("policy --join a.room b.room", "")
        .is(1, "", missing);
    place
        .run("policy --join --unstamped a.room b.room", "")
        .is(0, REFINED, "");
}

/// Where no stamp can be put there is no room either.
#[test]
fn the_stamp_comes_first() {
    let place = Place::new();
    fs::create_dir(place.path("c.room.policy")).expect("a folder in its place");
    place
        .run("policy c.room", GET)
        .fails(3, "room: c.room.policy: ");
    let left = place.names();
    assert!(
        left.iter()
            .all(|name| !name.starts_with("c.room") || name == "c.room.policy"),
        "{left:?}"
    );
    place.write("c.room", Room::new().to_bytes());
    place
        .run("policy --join c.room", "")
        .fails(3, "room: c.room.policy: ");
}

/// A log that breaks off: an error where more was to come.
struct Broken;

impl Read for Broken {
    fn read(&mut self, _: &mut [u8]) -> io::Result<usize> {
        Err(io::Error::other("the log broke off"))
    }
}

/// The room of an earlier walk does not pass for that of one that failed.
#[test]
fn a_walk_that_fails_leaves_no_room() {
    let place = Place::new();
    let (mut output, mut errors) = (Vec::new(), Vec::new());
    let part = BufReader::new(GET.as_bytes().chain(Broken));
    let words = place.words("policy a.room");
    let status = desk::run(words, part, &mut output, &mut errors);
    assert_eq!(status, 3);
    assert_eq!(errors, b"room: standard input: the log broke off\n");
    assert!(!place.path("a.room").exists());
    let join = place.run("policy --join --expect 2 a.room b.room", "");
    join.fails(3, "room: a.room: ");
}

/// A policy is tried before anything is removed or saved, without a record too.
#[test]
fn a_policy_that_is_refused() {
    let place = Place::new();
    place.write("broken", "{");
    let broken =
        "room: broken: refused by 3: the policy is not a JSON text in UTF-8, from byte 1 on\n";
    for room in ["a.room", "c.room"] {
        place.run(&format!("broken {room}"), "").is(1, "", broken);
    }
    place
        .run("broken --join --unstamped a.room", "")
        .is(1, "", broken);
    assert!(place.path("a.room").exists() && !place.path("c.room").exists());
    // The two paths mixed up.
    place
        .run("a.room policy", "")
        .fails(1, "room: a.room: refused by 2: ");
    assert!(place.path("policy").exists());
}

#[test]
fn rooms_that_are_refused() {
    let place = Place::new();
    place.write("c.room.policy", POLICY);
    place.write("c.room", [0; 100]);
    let join = "policy --join a.room c.room b.room";
    place.run(join, "").is(
        1,
        "",
        "room: c.room: a saved room has 65536 bytes, not 100\n",
    );
    place.write("c.room", vec![0xFF; Room::BYTES]);
    place.run(join, "").fails(1, "room: c.room: refused by 6: ");
    place.run("policy c.room", "\n\n").is(0, "", "");
    place.run(join, "").is(0, REFINED, "");
    let nothing = place.run("policy --join c.room", "");
    nothing.is(
        1,
        "",
        "room: refused by 10: the log leaves no Allow statement to write\n",
    );
}

#[test]
fn files_that_cannot_be_read_or_written() {
    let place = Place::new();
    fs::create_dir(place.path("folder")).expect("a folder");
    for (words, file) in [
        ("nowhere a.room", "nowhere"),
        ("folder a.room", "folder"),
        ("policy folder", "folder"),
        ("policy nowhere/c.room", "nowhere/c.room.policy"),
        ("nowhere --join a.room", "nowhere"),
        ("policy --join --unstamped a.room c.room", "c.room"),
    ] {
        place.run(words, GET).fails(3, &format!("room: {file}: "));
    }
    assert!(place.path("a.room").exists());
}

/// Takes nothing, as a full disk does.
struct Full;

impl Write for Full {
    fn write(&mut self, _: &[u8]) -> io::Result<usize> {
        Err(io::Error::other("the disk is full"))
    }

    fn flush(&mut self) -> io::Result<()> {
        Ok(())
    }
}

#[test]
fn a_result_that_cannot_be_written() {
    let place = Place::new();
    let words = place.words("policy --join a.room b.room");
    let mut errors = Vec::new();
    assert_eq!(desk::run(words, io::empty(), &mut Full, &mut errors), 3);
    assert_eq!(errors, b"room: the disk is full\n");
}

#[test]
fn wrong_use() {
    let place = Place::new();
    for words in [
        "",
        "policy",
        "--join",
        "policy --join",
        "policy a.room b.room",
        "policy a.room --expect 1",
        "policy a.room --unstamped",
        "policy --join a.room --expect",
        "policy --join a.room --expect 0",
        "policy --join a.room --expect -1",
        "policy --join --expect a.room",
        "policy --join a.room --expected 1",
        "policy --joined a.room",
    ] {
        let ran = place.run(words, GET);
        ran.fails(2, "room: ");
        assert!(
            ran.errors.ends_with("; see room --help\n"),
            "{words}: {ran:?}"
        );
    }
    assert_eq!(place.names().len(), 5);
}

#[test]
fn help() {
    let place = Place::new();
    for words in ["-h", "--help", "policy --join --help"] {
        let ran = place.run(words, "");
        assert_eq!((ran.status, ran.errors.as_str()), (0, ""));
        for told in ["--join", "--expect N", "--unstamped", "ROOM.policy"] {
            assert!(ran.output.contains(told), "{told}: {}", ran.output);
        }
        let statuses = "exit status: 0 done, 1 refused, 2 wrong use, 3 something could not be read or written\n";
        assert!(ran.output.ends_with(statuses), "{}", ran.output);
    }
}
