//! The trials on the second implementation, which passes them, and on wrong
//! ones, which do not.

mod imitations;
mod noticed;
mod on_second;
