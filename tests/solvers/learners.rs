//! Tests of `cdcl_prove`.

mod auction_tests;
mod samples;
mod searcher_tests;
mod tests;
