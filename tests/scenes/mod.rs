//! Runs the whole program over files and a sink in memory, for the tests of its commands.
//!
//! A test is a table. A row has the inputs of a run and the expected facts about the result, as plain text.
//!
//! Read `scene` first: a command over the files of one auction, and one change (`change`). Most auctions use the files of three
//! stations (`stations`). `named` has several scenarios next to one another, for commands with other files. `outside` makes the
//! folder and the sink and runs the program; `run_outputs` and `record_text` describe the result.

pub mod change;
pub mod named;
pub mod outside;
mod record_text;
pub mod scene;
pub mod stations;
pub mod run_outputs;
