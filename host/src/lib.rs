//! Muckposy refines AWS IAM policies: a log of requests goes in, and the policy
//! comes out narrowed to what the log shows to be used.
//!
//! This crate calls the proved library, which works on lent memory only. A
//! *record* is one request, as the IAM policy simulator takes it. A *room*
//! keeps what the records of a log have charged to each entry of one policy.
//!
//! ```
//! let policy = br#"{"Version":"2012-10-17","Statement":[
//!     {"Effect":"Allow","Action":"s3:*","Resource":"arn:aws:s3:::gate/*"}]}"#;
//! let night = [
//!     r#"{"ActionNames":["s3:GetObject"],"ResourceArns":["arn:aws:s3:::gate/north/1"]}"#,
//!     r#"{"ActionNames":["s3:GetObject"],"ResourceArns":["arn:aws:s3:::gate/north/2"]}"#,
//! ];
//! let mut room = muckposy::Room::new();
//! for record in night {
//!     room.feed(policy, record.as_bytes())?;
//! }
//! let refined = String::from_utf8(room.finish(policy)?).unwrap();
//! assert_eq!(
//!     refined,
//!     concat!(
//!         r#"{"Version":"2012-10-17","Statement":[{"Effect":"Allow","#,
//!         r#""Action":["s3:GetObject"],"Resource":["arn:aws:s3:::gate/north/*"]}]}"#,
//!     )
//! );
//! # Ok::<(), muckposy::Refusal>(())
//! ```
//!
//! The six operations are the functions below; [`Room`] saves the counting of
//! numbers. A log may be cut into parts that are fed apart, anywhere and in any
//! order, and joined: the room comes out the same.
//!
//! # Refusals
//!
//! Every operation takes any bytes and numbers. What it cannot work on it refuses,
//! by a number, and then nothing that was lent is changed. [`Reason`] has a name and
//! the usual cause for each; of several that apply, the lowest is given.
//!
//! | Number | Reason | Meaning | Met in |
//! |---|---|---|---|
//! | 1 | [`RoomLength`] | a room is not 16,384 numbers long | [`feed`], [`join`], [`finish`], [`fresh`] |
//! | 2 | [`PolicyTooLong`] | the policy is longer than 16,384 bytes | all but [`fresh`] |
//! | 3 | [`PolicyNotJson`] | the policy is not a JSON text in UTF-8 | all but [`fresh`] |
//! | 4 | [`PolicyLayout`] | the policy is JSON, but not laid out as a policy | all but [`fresh`] |
//! | 5 | [`PolicyLimit`] | the policy has more or longer parts than the limits let it have | all but [`fresh`] |
//! | 6 | [`RoomContent`] | a room holds something that cannot come from this policy | [`feed`], [`join`], [`finish`] |
//! | 7 | [`RecordTooLong`] | the record is longer than 8,192 bytes | [`decide`], [`feed`] |
//! | 8 | [`RecordNotJson`] | the record is not a JSON text in UTF-8 | [`decide`], [`feed`] |
//! | 9 | [`RecordLayout`] | the record is JSON, but not laid out as a record or over a limit | [`decide`], [`feed`] |
//! | 10 | [`NothingAllowed`] | the log leaves no Allow statement to write | [`finish`] |
//! | 11 | [`ResultTooLong`] | the written policy would be longer than 6,144 bytes | [`finish`], [`restate`] |
//! | 12 | [`OutputTooShort`] | the output is too short for the written policy | [`finish`], [`restate`] |
//!
//! # Threads, stack and memory
//!
//! - **Threads.** What an operation answers and writes depends on what is lent to it
//!   and on nothing else: there is no state, no lock and nothing to set up. Any
//!   number of threads may call at once. [`Room`] and all answers are `Send` and
//!   `Sync`.
//! - **Stack.** Operations keep all they need on the stack of the caller. What a
//!   call takes at most, rounded up:
//!
//!   | Operation | KiB of stack |
//!   |---|---:|
//!   | [`decide`], [`feed`] | 112 |
//!   | [`restate`] | 92 |
//!   | [`finish`] | 84 |
//!   | [`join`] | 76 |
//!   | [`fresh`] | 4 |
//!
//!   The threads of the standard library have 2 MiB and need no thought. Where you
//!   set a size yourself, as for many small threads, let it be 256 KiB or more. The
//!   128 KiB that a thread of C has under musl are too close.
//! - **Memory.** No operation allocates. What does is [`Room`], 64 KiB for each, and
//!   [`finish_to_vec`], [`restate_to_vec`] and [`Room::to_bytes`], for what they
//!   answer. The crate is `no_std` and wants `alloc`.
//!
//! # Linking
//!
//! The library is a static archive for x86-64 Linux, and a build for anything else
//! ends with a message. Inside the repository the build has it proved and built by
//! `rt` of the Rattle kit, once for each state of its sources. Anywhere else the
//! variable `MUCKPOSY_ARCHIVE` names a prebuilt archive by its whole path; `./dist`
//! makes one. `cargo doc` in this package needs neither. From C, see
//! `include/muckposy.h`.
//!
//! [`RoomLength`]: Reason::RoomLength
//! [`PolicyTooLong`]: Reason::PolicyTooLong
//! [`PolicyNotJson`]: Reason::PolicyNotJson
//! [`PolicyLayout`]: Reason::PolicyLayout
//! [`PolicyLimit`]: Reason::PolicyLimit
//! [`RoomContent`]: Reason::RoomContent
//! [`RecordTooLong`]: Reason::RecordTooLong
//! [`RecordNotJson`]: Reason::RecordNotJson
//! [`RecordLayout`]: Reason::RecordLayout
//! [`NothingAllowed`]: Reason::NothingAllowed
//! [`ResultTooLong`]: Reason::ResultTooLong
//! [`OutputTooShort`]: Reason::OutputTooShort

#![no_std]
#![deny(unsafe_code)]
#![warn(missing_docs)]
#![warn(clippy::missing_errors_doc, clippy::missing_panics_doc)]
#![warn(clippy::must_use_candidate)]

extern crate alloc;

// The build script found nothing to link. Documentation can be had without.
#[cfg(all(muckposy_unlinked, not(doc)))]
compile_error!(env!("MUCKPOSY_UNLINKED"));

mod decision;
mod linked;
mod operations;
mod reason;
mod refusal;
mod room;

pub use decision::{Decision, Outcome};
pub use operations::RESULT_BYTES;
pub use operations::{decide, feed, finish, finish_to_vec, fresh, join, restate, restate_to_vec};
pub use reason::Reason;
pub use refusal::Refusal;
pub use room::{Room, WrongLength};
