//! The record layout and its limits, clause by clause.

mod context;
mod limits;
mod meaning;
mod members;
mod texts;
