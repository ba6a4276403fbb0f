//! Files that others wrote, where they are at hand.

use crate::proved::Proved;
use second::corpus::{at_hand, run_json_suite, run_policies, Report};
use second::implementation::{Implementation, Second};
use std::io;

/// Fails unless both implementations say the same of every file.
fn alike(least: usize, run: impl Fn(&dyn Implementation) -> io::Result<Report>) {
    let [proved, second] = [run(&Proved), run(&Second)].map(|report| report.unwrap().lines);
    assert_eq!(proved, second);
    assert!(proved.len() > least, "{} files", proved.len());
}

#[test]
fn policies() {
    let Some(folder) = at_hand("policies") else {
        return;
    };
    alike(100, |implementation| {
        run_policies(implementation, &folder, None)
    });
}

#[test]
fn json_suite() {
    let Some(folder) = at_hand("json") else {
        return;
    };
    alike(90, |implementation| run_json_suite(implementation, &folder));
}
