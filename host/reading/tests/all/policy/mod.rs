//! The policy layout and its limits, clause by clause.

mod actions;
mod conditions;
mod limits;
mod meaning;
mod members;
mod numbers;
mod resources;
mod sids;
