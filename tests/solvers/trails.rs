//! Tests of `trail_prop`.

mod random_tests;
mod samples;
mod tests;
