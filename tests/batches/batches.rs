//! Tests of the command `batch`. A row has a list, a change of the run, and facts that the run leaves, as plain text.

mod scene;
mod tests;
