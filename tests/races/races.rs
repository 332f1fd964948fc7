//! Tests of `race_wave`.

mod attempt_tests;
mod cached_tests;
mod gate_tests;
mod live_tests;
mod memory_tests;
mod poll_tests;
mod repeated_tests;
mod samples;
mod tests;
