//! Tests of the command `resume`. A row has a scenario, the beginning of a transcript, a change, and the expected facts as plain
//! text.

mod scene;
mod tests;
