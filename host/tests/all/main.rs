//! The proved library through its Rust door: trials by hand, refusals, rooms,
//! and comparisons with the second implementation. One binary, so that the
//! library is linked once.

use trials::texts;

mod agree;
mod proved;
mod runner;

// What the examples of scale share.
#[path = "../../examples/scale/asked.rs"]
mod asked;
#[path = "../../examples/scale/cut.rs"]
mod cut;
#[path = "../../examples/scale/desk.rs"]
mod desk;
#[path = "../../examples/scale/gather.rs"]
mod gather;
#[path = "../../examples/scale/save.rs"]
mod save;
#[path = "../../examples/scale/stamp.rs"]
mod stamp;
#[path = "../../examples/scale/trouble.rs"]
mod trouble;
#[path = "../../examples/scale/walk.rs"]
mod walk;

mod contents;
mod corpus;
mod damage;
mod decision;
mod downstream;
mod header;
mod joining;
mod limits;
mod logs;
mod numbered;
mod outputs;
mod pages;
mod program;
mod properties;
mod refine;
mod refusals;
mod restate;
mod room;
mod rooms;
mod rows;
mod scale;
mod types;
