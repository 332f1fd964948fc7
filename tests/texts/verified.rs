//! Tests of `transcript_check`, and of auctions that resume from the prefix of a transcript.

mod live_tests;
mod resume_tests;
mod samples;
mod tests;
