//! Tests of `walk_repack`.

mod samples;
mod tests;
