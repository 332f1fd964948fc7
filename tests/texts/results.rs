//! Tests of `result_text`.

mod carried;
mod samples;
mod tests;
