//! Tests of `undecided_tests`.

mod replace_tests;
mod samples;
mod task_tests;
