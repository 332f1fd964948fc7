//! Tests of `transcript_text`.

mod prefix_tests;
mod reader_tests;
mod samples;
mod tests;
