//! The proved readers of policies and records behind safe functions, with the
//! types of the second implementation, so that answers are compared by `==`.
//!
//! For tests only; the product does not link this.

#![deny(unsafe_code)]

mod compare;
mod held;
mod linked;

pub use compare::{compare, Comparison};
use held::Misheld;
use linked::Told;
use second::layouts::{Policy, Record};
use second::Refusal;

/// The only length of a run that is not refused.
pub const RUN_NUMBERS: usize = 16_384;

/// No held run begins with this number.
const BLANK: u32 = u32::MAX;

/// Holds a policy at the beginning of the run, and says in how many numbers.
pub fn hold_policy(text: &[u8], run: &mut [u32]) -> Result<usize, Refusal> {
    linked::policy(text, run).count()
}

/// Holds a record at the beginning of the run, and says in how many numbers.
pub fn hold_record(text: &[u8], run: &mut [u32]) -> Result<usize, Refusal> {
    linked::record(text, run).count()
}

/// What the proved reader says of a policy text.
pub fn read_policy(text: &[u8]) -> Result<Policy, Refusal> {
    read(text, hold_policy, held::policy)
}

/// What the proved reader says of a record.
pub fn read_record(text: &[u8]) -> Result<Record, Refusal> {
    read(text, hold_record, held::record)
}

fn read<T>(
    text: &[u8],
    hold: fn(&[u8], &mut [u32]) -> Result<usize, Refusal>,
    decode: fn(&[u32]) -> Result<T, Misheld>,
) -> Result<T, Refusal> {
    let mut run = vec![BLANK; RUN_NUMBERS];
    let count = hold(text, &mut run)?;
    let held = &run[..count];
    Ok(decode(held).unwrap_or_else(|fault| panic!("{fault} in {held:?}")))
}

impl Told {
    /// A refusal counts nothing, and what is counted has no place.
    fn count(&self) -> Result<usize, Refusal> {
        let Told {
            refusal,
            place,
            count,
        } = *self;
        if refusal == 0 {
            assert_eq!(place, 0, "something counted has a place");
            return Ok(count);
        }
        assert_eq!(count, 0, "a refusal counts something");
        Err(refused(refusal, place))
    }
}

fn refused(number: u64, place: usize) -> Refusal {
    let number = u32::try_from(number).expect("refusals go up to 12");
    Refusal { number, place }
}
