//! Files that others wrote, where they are at hand: beside the checkout.

use crate::common::{allow, record};
use second::corpus::{at_hand, run_json_suite, run_policies};
use second::implementation::Second;
use std::path::Path;

#[test]
fn json_suites_agree() {
    let Some(folder) = at_hand("json") else {
        return;
    };
    let report = run_json_suite(&Second, &folder).unwrap();
    assert_eq!(report.differences, 0, "{:#?}", report.lines);
    assert!(report.agreements > 0);
}

#[test]
fn policies_agree() {
    let Some(folder) = at_hand("policies") else {
        return;
    };
    let report = run_policies(&Second, &folder, None).unwrap();
    assert_eq!(report.differences, 0, "{:#?}", report.lines);
    assert!(report.agreements > 0);
}

/// A small folder of our own, with one expectation that is wrong on purpose.
#[test]
fn differences_are_reported() {
    let folder = Path::new(env!("CARGO_TARGET_TMPDIR")).join("corpus");
    std::fs::create_dir_all(&folder).unwrap();
    let write = |name: &str, text: &str| std::fs::write(folder.join(name), text).unwrap();
    write("good.json", &allow("\"*\"", "\"*\""));
    write("bad.json", "{}");
    write(
        "log",
        &format!("{}\n\n{{\n{}", record("a:b", "*"), record("a:c", "*")),
    );
    write(
        "EXPECTED.tsv",
        "name\tbytes\trefusal\ngood\t1\t0\nbad\t2\t0\n",
    );
    let log = folder.join("log");
    let report = run_policies(&Second, &folder, Some(&log)).unwrap();
    assert_eq!((report.agreements, report.differences), (1, 1));
    let good = report
        .lines
        .iter()
        .find(|line| line.starts_with("good: "))
        .unwrap();
    assert!(
        good.contains("records allowed/1 8@1 allowed/1; join 0 alike; finish 91 bytes"),
        "{good}"
    );
    assert_eq!(
        report.lines.last().unwrap(),
        "2 files, 1 agreements, 1 differences"
    );
    write(
        "EXPECTED.tsv",
        "file\tpolicy\trecord\nbad.json\t4 at 0\t9 at 1\n",
    );
    let report = run_json_suite(&Second, &folder).unwrap();
    assert_eq!((report.agreements, report.differences), (1, 1));
}
