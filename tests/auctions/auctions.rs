//! Tests of `auction_core`.

mod live_tests;
mod one_round_tests;
mod samples;
mod tests;
