//! The lent output: its length, what it held before, and refused calls.

use super::{RESULT_BYTES, TOO_LONG, TOO_SHORT};
use crate::agree;
use crate::texts::*;
use second::Refusal;

const LENGTHS: [usize; 7] = [0, 1, 80, RESULT_BYTES - 1, RESULT_BYTES, 7_000, 100_000];

/// Fails unless a policy that allows everything is written where it fits.
fn fits(text: &str, lengths: impl IntoIterator<Item = usize>) {
    let written = policy(r#"[{"Effect":"Allow","Action":["*"],"Resource":["*"]}]"#);
    for length in lengths {
        let expected = match length < written.len() {
            true => Err(TOO_SHORT),
            false => Ok(written.clone().into_bytes()),
        };
        let found = agree::restate(text.as_bytes(), length);
        assert_eq!(found, expected, "{length}");
    }
}

/// Every length from none to more than the result, and far more; the policy's
/// own length does not matter.
#[test]
fn lengths_of_outputs() {
    let short = policy(ALLOW);
    let long = padded(&short, 16_384);
    for text in [short, long] {
        fits(&text, (0..120).chain(LENGTHS));
    }
}

/// The policy is refused first, then the result's length, then the output's.
#[test]
fn refused_calls_leave_the_output() {
    let good = policy(ALLOW);
    let refused = |number, place| Refusal { number, place };
    let long = format!(r#""arn:::::{}""#, "𝄞".repeat(246));
    for (text, expected) in [
        (padded(&good, 16_385), refused(2, 0)),
        (" ".repeat(20_000), refused(2, 0)),
        (String::new(), refused(3, 0)),
        (
            good[..good.len() - 1].to_owned(),
            refused(3, good.len() - 1),
        ),
        (format!("{good}x"), refused(3, good.len())),
        ("{}".to_owned(), refused(4, 0)),
        (record(""), refused(4, 0)),
        (with_resource(&list_of("\"arn::::\"", 60)), refused(4, 0)),
        (statements(&vec![ALLOW.to_owned(); 17]), refused(5, 0)),
        (with_resource(&list_of("\"*\"", 64)), refused(5, 0)),
        (with_resource(&list_of(&long, 10)), TOO_LONG),
    ] {
        for length in LENGTHS {
            let found = agree::restate(text.as_bytes(), length);
            assert_eq!(found, Err(expected), "{length} for {text}");
        }
    }
}
