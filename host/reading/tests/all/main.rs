//! The proved readers of policies and records and the second implementation's:
//! both against tables written from the order by hand, and against each other.

use trials::texts;

mod agree;
mod corpus;
mod edited;
mod generated;
mod policy;
mod record;
mod refusals;
mod runs;
mod tables;
