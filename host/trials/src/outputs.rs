//! Where results are written, and how long they may be.

use crate::subject::{refused, writes, written, Subject, Write, RESULT};
use crate::texts::*;
use crate::{same, Check};

/// Results go into outputs of just their length and longer ones, and nowhere
/// else.
pub fn lengths(subject: &Subject) -> Check {
    let policy = with_resource(r#"["*","arn:::::n*"]"#);
    let room = subject.fed(&policy, &[asking("a:b", "arn:::::né")])?;
    let refined = r#"["arn:::::n\u00e9","arn:::::n\u00e9"]"#;
    let refined = statements(&[statement(r#"["a:b"]"#, refined)]);
    let restated = statements(&[statement(r#"["*"]"#, r#"["*","arn:::::n*"]"#)]);
    let policy = policy.as_bytes();
    let finish: Write = &|output| subject.implementation.finish(policy, &room, output);
    writes(finish, refined.as_bytes(), "finish")?;
    let restate: Write = &|output| subject.implementation.restate(policy, output);
    writes(restate, restated.as_bytes(), "restate")
}

/// A statement that is written in so many bytes.
fn filling(effect: &str, bytes: usize) -> String {
    let long = quoted(&format!("arn:::::{}", "x".repeat(200)));
    let frame = |last: usize| {
        let list = vec![long.as_str(); 28].join(",");
        let last = quoted(&format!("arn:::::{}", "x".repeat(last)));
        statement_to(effect, r#"["*"]"#, &format!("[{list},{last}]"))
    };
    frame(bytes - frame(0).len())
}

/// 6,144 bytes are written, one more is refused by 11, and so is it where the
/// output is too short.
pub fn longest(subject: &Subject) -> Check {
    let allowed = statement(r#"["*"]"#, r#"["arn:::::y"]"#);
    let refined = statement(r#"["a:b"]"#, r#"["arn:::::y"]"#);
    let around = |allow: &str, rest: &str| statements(&[allow.to_owned(), rest.to_owned()]);
    for (more, fits) in [(0, true), (1, false), (100, false)] {
        let denied = filling("Deny", RESULT + more - around(&refined, "").len());
        let policy = around(&allowed, &denied);
        let room = subject.fed(&policy, &[asking("a:b", "arn:::::y")])?;
        let text = policy.as_bytes();
        let finish: Write = &|output| subject.implementation.finish(text, &room, output);
        judged(finish, around(&refined, &denied), fits, "finish")?;
    }
    for (more, fits) in [(0, true), (1, false), (100, false)] {
        let rest = filling("Allow", RESULT + more - around(&allowed, "").len());
        let policy = around(&allowed, &rest);
        let text = policy.as_bytes();
        let restate: Write = &|output| subject.implementation.restate(text, output);
        judged(restate, policy.clone(), fits, "restate")?;
    }
    Ok(())
}

fn judged(write: Write, expected: String, fits: bool, what: &str) -> Check {
    if fits {
        return writes(write, expected.as_bytes(), what);
    }
    for length in [0, RESULT, expected.len(), 20_000] {
        same(written(write, length)?, Err(refused(11)), what)?;
    }
    Ok(())
}
