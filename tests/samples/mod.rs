//! Shared test data: small books, workers, scenarios, answers, owners' answers, postings to an auction, and a gate that holds two
//! workers.
//!
//! These modules may use `auction_core`, the crates below that crate, and `solver_gate`. Read `books` and `scenarios` first, then
//! `answers`, then `postings`.

pub mod answers;
pub mod books;
pub mod gates;
pub mod owners;
pub mod postings;
pub mod scenarios;
pub mod workers;
