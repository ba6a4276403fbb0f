//! `refine`, the command line around the proved program, run as people run it:
//! in a folder as it is handed out, with the program, and in one of sources,
//! where a stand-in for `rt` takes the place of ten minutes of proving.

use crate::program::{folder, program, root, POLICY, RECORD, REFINED};
use std::fs;
use std::os::unix::fs::PermissionsExt;
use std::path::{Path, PathBuf};
use std::process::Command;

/// A folder with the script and the page that has its words, and beside them a
/// policy, a log of which one line is refused, and what is printed.
struct Tool {
    folder: PathBuf,
}

struct Ran {
    status: Option<i32>,
    output: String,
    errors: String,
}

impl Tool {
    fn new() -> Tool {
        let folder = folder();
        for name in ["refine", "docs/REFUSALS.md", "host/Cargo.toml"] {
            let to = folder.join(name);
            fs::create_dir_all(to.parent().expect("a folder above")).expect("a folder");
            fs::copy(root().join(name), to).expect("a copy of the script and its pages");
        }
        let tool = Tool { folder };
        tool.write("policy", POLICY);
        tool.write("log", &format!("{RECORD}\n{{\n{RECORD}\n"));
        tool
    }

    /// With the program in it, as a folder that was handed out.
    fn handed_out() -> Tool {
        let tool = Tool::new();
        fs::create_dir(tool.folder.join("bin")).expect("a folder for the program");
        fs::copy(program(), tool.folder.join("bin/muckposy")).expect("a copy of the program");
        tool
    }

    /// With sources that a stand-in for `rt` makes the program from: three crates, of which the last is slow.
    fn of_sources(rt: &str) -> Tool {
        let tool = Tool::new();
        for name in ["chars", "text", "muckposy"] {
            tool.write(&format!("crates/{name}/src/lib.rt"), "");
        }
        tool.write("crates.txt", "chars:\ntext: chars\nmuckposy: chars text\n");
        tool.script("kit/bin/rt", rt);
        tool
    }

    fn write(&self, name: &str, text: &str) {
        let path = self.folder.join(name);
        fs::create_dir_all(path.parent().expect("a folder above")).expect("a folder");
        fs::write(path, text).expect("a file of the trial");
    }

    fn script(&self, name: &str, text: &str) {
        self.write(name, text);
        let path = self.folder.join(name);
        fs::set_permissions(path, fs::Permissions::from_mode(0o755)).expect("a script");
    }

    fn read(&self, name: &str) -> String {
        fs::read_to_string(self.folder.join(name)).expect("a file that was written")
    }

    fn has(&self, name: &str) -> bool {
        self.folder.join(name).exists()
    }

    /// A line of the shell, in the folder. It ends within seconds.
    fn run(&self, line: &str) -> Ran {
        let done = Command::new("timeout")
            .args(["120", "bash", "-c", line])
            .current_dir(&self.folder)
            .env("PROGRAM", program())
            .env_remove("RATTLE_HOME")
            .output()
            .expect("a shell");
        Ran {
            status: done.status.code(),
            output: String::from_utf8_lossy(&done.stdout).into_owned(),
            errors: String::from_utf8_lossy(&done.stderr).into_owned(),
        }
    }

    /// The status, all of standard output, and words of standard error.
    #[track_caller]
    fn gives(&self, line: &str, status: i32, output: &str, said: &str) -> Ran {
        let ran = self.run(line);
        assert_eq!(ran.status, Some(status), "{line}: {}", ran.errors);
        assert_eq!(ran.output, output, "{line}");
        assert!(ran.errors.contains(said), "{line}: {}", ran.errors);
        ran
    }
}

impl Drop for Tool {
    fn drop(&mut self) {
        drop(fs::remove_dir_all(&self.folder));
    }
}

fn printed() -> String {
    format!("line 2 refused 8 at 1\n{REFINED}\n")
}

#[test]
fn a_policy_is_written() {
    let tool = Tool::handed_out();
    let ran = tool.gives(
        "./refine policy < log",
        0,
        &printed(),
        "lines: 3, refused: 1",
    );
    assert!(ran
        .errors
        .contains("refused by 8: 1, first in line 2: the record is not a JSON text"));
    let ran = tool.gives("./refine -q -- policy < log", 0, &printed(), "");
    assert_eq!(ran.errors, "", "quiet");
    tool.gives("./refine <(cat policy) < log", 0, &printed(), "");
    let left = fs::read_dir(&tool.folder).expect("the folder").count();
    assert_eq!(left, 6, "nothing is left behind");
}

/// The result goes to the file alone, what was refused to standard error; a file that was there stays as it was, unless
/// a whole policy takes its place.
#[test]
fn into_a_file() {
    let tool = Tool::handed_out();
    tool.gives(
        "./refine -o new policy < log",
        0,
        "",
        "line 2 refused 8 at 1\n",
    );
    assert_eq!(tool.read("new"), format!("{REFINED}\n"));
    tool.write("old", "as it was");
    tool.gives(
        "./refine --output=old policy < /dev/null",
        1,
        "",
        "refused 10 at 0\n",
    );
    tool.gives("./refine -o old brace < log", 1, "", "no such file");
    tool.gives(
        "./refine -o old policy < bin",
        3,
        "",
        "standard input could not be read",
    );
    assert_eq!(tool.read("old"), "as it was");
    tool.gives(
        "ln -s old link; ./refine -q -o link policy < log",
        0,
        "",
        "",
    );
    assert_eq!(tool.read("old"), format!("{REFINED}\n"), "behind a link");
    tool.gives("./refine -o bin policy < log", 3, "", "is a folder");
    tool.gives(
        "./refine -o none/new policy < log",
        3,
        "",
        "cannot be written",
    );
    tool.gives(
        "./refine -o /dev/full policy < log",
        3,
        "",
        "could not be written to its end",
    );
    tool.gives("./refine -o quiet policy < log >&- 2>&-", 0, "", "");
    assert!(
        tool.run("ls | grep -F .new.").output.is_empty(),
        "nothing is left behind"
    );
}

#[test]
fn refused() {
    let tool = Tool::handed_out();
    let three = "the policy is not a JSON text in UTF-8; usually a byte order mark";
    tool.gives(
        "printf '{' > brace; ./refine brace < log",
        1,
        "refused 3 at 1\n",
        three,
    );
    tool.gives(
        "./refine /dev/zero < log",
        1,
        "refused 2 at 0\n",
        "the log was not read",
    );
    tool.gives(
        "./refine policy < /dev/null",
        1,
        "refused 10 at 0\n",
        "lines: 0, refused: 0; none was written",
    );
    let lines = "line 1 refused 8 at 1\nline 2 refused 9 at 0\nrefused 10 at 0\n";
    tool.gives(
        "printf '{\\n{}' | ./refine policy",
        1,
        lines,
        "refused by 9: 1, first in line 2",
    );
    tool.gives(
        "./refine none < log",
        1,
        "no policy\n",
        "none: there is no such file",
    );
}

/// However many lines are refused, a number is explained once.
#[test]
fn many_lines_are_refused() {
    let tool = Tool::handed_out();
    let ran = tool.run("yes '{' | head -n 5000 | ./refine policy");
    assert_eq!(ran.status, Some(1));
    assert_eq!(ran.output.lines().count(), 5_001);
    assert_eq!(ran.errors.lines().count(), 3, "{}", ran.errors);
    assert!(
        ran.errors.contains("refused by 8: 5000, first in line 1"),
        "{}",
        ran.errors
    );
}

#[test]
fn wrong_use() {
    let tool = Tool::handed_out();
    for line in [
        "./refine < log",
        "./refine policy log < log",
        "./refine --none policy < log",
        "./refine policy -o < log",
        "./refine -o",
        "./refine '' < log",
    ] {
        tool.gives(line, 2, "", "-h says more");
    }
    let help = tool.run("./refine --help");
    assert_eq!(help.status, Some(0));
    assert!(help.output.starts_with("usage: refine ") && help.output.contains("status: 0"));
    let version = concat!("muckposy ", env!("CARGO_PKG_VERSION"), "\n");
    tool.gives("./refine --version", 0, version, "");
}

/// What the system does not let be read or written is told by the status.
#[test]
fn what_the_system_says() {
    let tool = Tool::handed_out();
    let output = "standard output could not be written to its end";
    tool.gives("./refine policy < log > /dev/full", 3, "", output);
    tool.gives(
        "{ ./refine policy < log; echo $? > status; } | true",
        0,
        "",
        "",
    );
    assert_eq!(tool.read("status"), "3\n", "a closed pipe");
    tool.gives(
        "./refine policy < log >&-",
        3,
        "",
        "standard output is closed",
    );
    tool.gives("./refine policy <&-", 3, "", "standard input is closed");
    tool.gives(
        "./refine policy < bin",
        3,
        "",
        "standard input could not be read to its end",
    );
    tool.gives("./refine bin < log", 3, "no policy\n", "bin is a folder");
    tool.gives("./refine policy < log 2> /dev/full", 0, &printed(), "");
    tool.gives("./refine policy < log 2>&-", 0, &printed(), "");
    tool.gives(
        "TMPDIR=/none ./refine policy < log",
        3,
        "",
        "temporary files",
    );
    let killed = "echo 'kill -9 $$' > bin/muckposy; ./refine policy < log";
    tool.gives(killed, 3, "", "the program");
    let cut =
        "printf '#!/bin/sh\\necho line 1 refused 8 at 1\\n' > bin/muckposy; ./refine policy < log";
    tool.gives(cut, 3, "", "the program");
}

/// One that proves two crates, of which a third was built before, and leaves the program.
const RT: &str = "#!/bin/sh
[ \"$*\" = run ] && [ \"${PWD##*/}\" = muckposy ] || exit 2
echo 'fn chars::lines: proved'
for name in chars muckposy; do echo \"crate $name: modules loaded=0 checked=5\"; echo 'logic=proved functions=3'; done
mkdir -p out && cp \"$PROGRAM\" out/muckposy
";

#[test]
fn proved_first() {
    let tool = Tool::of_sources(RT);
    let plain = "PATH=/usr/bin:/bin ./refine policy < log";
    tool.gives(plain, 3, "", "rt, of the Rattle kit, is not on PATH");
    let with_rt = "PATH=$PWD/kit/bin:$PATH ./refine policy < log";
    let ran = tool.gives(with_rt, 0, &printed(), "refine: chars proved, ");
    assert!(
        ran.errors.contains("refine: muckposy proved, "),
        "{}",
        ran.errors
    );
    let ran = tool.gives(plain, 0, &printed(), "");
    assert!(
        !ran.errors.contains("proved"),
        "not proved again: {}",
        ran.errors
    );
    tool.run("touch -d '1 hour' crates/text/src/lib.rt");
    tool.gives(with_rt, 0, &printed(), "muckposy proved");
    let quiet = tool.run("PATH=$PWD/kit/bin:$PATH ./refine -q policy < log");
    assert_eq!((quiet.status, quiet.errors.as_str()), (Some(0), ""));
}

#[test]
fn not_proved() {
    let tool = Tool::of_sources(
        "#!/bin/sh\necho 'crate chars: modules loaded=0'; echo logic=not-proved; exit 1\n",
    );
    let line = "PATH=$PWD/kit/bin:$PATH ./refine policy < log";
    let ran = tool.gives(line, 3, "", "chars NOT PROVED");
    assert!(ran.errors.contains("target/refine.log"), "{}", ran.errors);
    assert!(tool.read("target/refine.log").contains("logic=not-proved"));
}

/// Ends what it started, also what ignores an interrupt, as the prover's own background work does.
#[test]
fn interrupted() {
    let rt = "#!/bin/sh\nsh -c 'trap \"\" INT; echo $$ > ../../worker; sleep 1000; true' &\nwait\n";
    let tool = Tool::of_sources(rt);
    // With job control, as at a terminal: without it the shell has background work ignore an interrupt.
    let line = "set -m; PATH=$PWD/kit/bin:$PATH ./refine policy < log & tool=$!
        until [ -s worker ]; do sleep 0.1; done
        kill -INT -- -$tool; wait $tool; echo $?
        for _ in {1..50}; do grep -qs ') [^Z] ' \"/proc/$(cat worker)/stat\" || exit 0; sleep 0.1; done; echo left";
    assert_eq!(tool.run(line).output, "130\n");
}

/// On another processor: the kit's emulator, and without any it is told before anything is proved.
#[test]
fn another_processor() {
    let tool = Tool::of_sources(RT);
    tool.script(
        "kit/bin/uname",
        "#!/bin/sh\n[ \"$1\" = -s ] && echo Linux || echo riscv64\n",
    );
    let path = "PATH=$PWD/kit/bin:/usr/bin:/bin";
    if !Path::new("/usr/bin/qemu-x86_64").exists() {
        let ran = tool.gives(
            &format!("{path} ./refine policy < log"),
            3,
            "",
            "no emulator here",
        );
        assert!(
            !ran.errors.contains("proving") && !tool.has("target"),
            "{}",
            ran.errors
        );
    }
    let tools = "kit/on/riscv64/toolchain";
    tool.write(&format!("{tools}/lib/ld-linux-x86-64.so.2"), "");
    // Notes what it is given, and runs the program by what runs it here.
    let emulator = "#!/bin/sh\necho \"$1 $2\" >> $TOLD; shift 3; exec $MUCKPOSY_RUNNER \"$@\"\n";
    tool.script(&format!("{tools}/bin/qemu-x86_64"), emulator);
    tool.gives(
        &format!("export TOLD=$PWD/told; {path} ./refine policy < log"),
        0,
        &printed(),
        "",
    );
    assert!(tool
        .read("told")
        .contains("ld-linux-x86-64.so.2 --library-path"));
    tool.script("kit/bin/uname", "#!/bin/sh\necho Darwin\n");
    tool.gives(
        &format!("{path} ./refine policy < log"),
        3,
        "",
        "the program is for Linux",
    );
}
