//! The lent run: its length, and what it held before.

use crate::texts::{policy, record, ALLOW};
use reading::{hold_policy, hold_record, RUN_NUMBERS};
use second::Refusal;

type Hold = fn(&[u8], &mut [u32]) -> Result<usize, Refusal>;

/// Each reader with a text that it accepts.
fn readers() -> [(Hold, String); 2] {
    [(hold_policy, policy(ALLOW)), (hold_record, record(""))]
}

#[test]
fn a_run_of_another_length_is_refused_and_left_alone() {
    for (hold, good) in readers() {
        for length in [
            0,
            1,
            8_192,
            RUN_NUMBERS - 1,
            RUN_NUMBERS + 1,
            2 * RUN_NUMBERS,
        ] {
            for text in [good.as_str(), "{}", "{", "", &" ".repeat(20_000)] {
                let mut run = vec![9; length];
                let refusal = hold(text.as_bytes(), &mut run);
                assert_eq!(refusal, Err(Refusal::ROOM_LENGTH), "{length}");
                assert!(run.iter().all(|&number| number == 9), "{length}");
            }
        }
    }
}

#[test]
fn what_is_held_does_not_depend_on_what_was_there() {
    for (hold, good) in readers() {
        let held = [0, 1, 0x10_FFFF, u32::MAX].map(|blank| {
            let mut run = vec![blank; RUN_NUMBERS];
            let count = hold(good.as_bytes(), &mut run).expect("a good text");
            run.truncate(count);
            run
        });
        assert!(held.iter().all(|other| *other == held[0]), "{held:?}");
        let mut run = vec![0; RUN_NUMBERS];
        for text in ["{", "{}", &good, "{\"x\":1}", &good] {
            let found = hold(text.as_bytes(), &mut run).is_ok();
            assert_eq!(found, text == good);
        }
        assert_eq!(run[..held[0].len()], held[0]);
    }
}
