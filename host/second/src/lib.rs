//! Muckposy a second time, in plain Rust and from the order alone.
//!
//! It refines IAM policies by what a log shows to be used, as the proved
//! implementation does, and shares no code with it. Where the two differ one
//! of them has misread the order; where they agree this one's speed is what the
//! proved one is measured against.
//!
//! From the bottom up: `scanner`, `json` and `strings` know nothing of
//! policies; `forms`, `members`, `symbols`, `policy`, `policy_layout`,
//! `record_layout`, `matching` and `decision` know nothing of logs;
//! `candidates`, `row`, `room` and `written_form` refine; `operations` and
//! `program` are what is called. `layouts` shows what was read. `generate`,
//! `model`, `properties` and `corpus` try implementations, this one or another.

#![forbid(unsafe_code)]

pub mod corpus;
#[cfg(feature = "faults")]
pub mod fault;
pub mod generate;
pub mod implementation;
pub mod layouts;
pub mod model;
pub mod properties;

mod candidates;
mod decision;
#[cfg(not(feature = "faults"))]
mod fault;
mod forms;
mod json;
mod limits;
mod matching;
mod members;
mod operations;
mod policy;
mod policy_layout;
mod program;
mod record_layout;
mod refusal;
mod room;
mod row;
mod scanner;
mod strings;
mod symbols;
mod written_form;

pub use decision::{Decision, Outcome};
pub use json::{scan, Scan};
pub use operations::{decide, feed, finish, fresh, join, restate, Desk};
pub use program::{read_policy_file, run_program};
pub use refusal::Refusal;
pub use strings::{decode_string, write_string, LoneSurrogate};
