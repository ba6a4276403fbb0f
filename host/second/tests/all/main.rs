//! Everything that is run against the public operations. One binary, so that
//! the library is linked once.

mod common;

mod corpus;
mod json;
mod layouts;
mod limits;
mod policies;
mod program;
mod properties;
mod records;
mod refusals;
mod strings;
