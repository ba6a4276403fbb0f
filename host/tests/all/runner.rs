//! Starting a program for x86-64: as it is, or on another processor by the
//! emulator that the environment names.

use std::env::{self, VarError};
use std::path::Path;
use std::process::Command;

/// Where it is set, its words go before the program's own path.
const VARIABLE: &str = "MUCKPOSY_RUNNER";

/// A command that starts this program.
pub fn start(program: &Path) -> Command {
    match env::var(VARIABLE) {
        Ok(runner) => started_by(&runner, program),
        Err(VarError::NotPresent) => started_by("", program),
        Err(trouble) => panic!("{VARIABLE}: {trouble}"),
    }
}

fn started_by(runner: &str, program: &Path) -> Command {
    let mut words = runner.split_whitespace();
    let Some(emulator) = words.next() else {
        return Command::new(program);
    };
    let mut command = Command::new(emulator);
    command.args(words).arg(program);
    command
}

#[test]
fn the_words_of_a_runner_go_first() {
    for (runner, expected) in [
        ("", vec!["/bin/it"]),
        ("run", vec!["run", "/bin/it"]),
        (" run  -L / ", vec!["run", "-L", "/", "/bin/it"]),
    ] {
        let command = started_by(runner, Path::new("/bin/it"));
        let words = [command.get_program()]
            .into_iter()
            .chain(command.get_args());
        assert!(words.eq(expected), "{command:?}");
    }
}
