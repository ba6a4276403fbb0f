//! Both implementations on a policy, or on a policy and a record.

use crate::proved::Proved;
use second::implementation::{Implementation, Second};
use second::{Decision, Refusal};
use std::fmt::Debug;

/// What both decide.
pub fn decide(policy: &[u8], record: &[u8]) -> Result<Decision, Refusal> {
    let answers = [Proved.decide(policy, record), Second.decide(policy, record)];
    same(&[policy, record], answers)
}

/// What both write to an output of this length. A result touches only the first
/// bytes, a refusal none.
pub fn restate(policy: &[u8], length: usize) -> Result<Vec<u8>, Refusal> {
    let before: Vec<u8> = (0..length).map(untouched).collect();
    let run = |implementation: &dyn Implementation| {
        let mut output = before.clone();
        let answer = implementation.restate(policy, &mut output);
        (answer, output)
    };
    let (answer, mut output) = same(&[policy], [run(&Proved), run(&Second)]);
    let count = answer.unwrap_or(0);
    assert!(output[count..] == before[count..], "{}", shown(&[policy]));
    output.truncate(count);
    answer.map(|_| output)
}

/// What a place of an output holds before a call: no byte of ASCII, so nothing
/// that is written.
fn untouched(place: usize) -> u8 {
    0x80 | (place % 113) as u8
}

fn same<T: PartialEq + Debug>(texts: &[&[u8]], [proved, second]: [T; 2]) -> T {
    assert!(
        proved == second,
        "the proved one says {proved:?}, the second {second:?}, of {}",
        shown(texts)
    );
    proved
}

pub fn shown(texts: &[&[u8]]) -> String {
    let texts = texts
        .iter()
        .map(|text| format!("\"{}\"", text.escape_ascii()));
    texts.collect::<Vec<_>>().join(" and ")
}
