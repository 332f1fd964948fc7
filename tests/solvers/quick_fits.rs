//! Tests of `quick_fits`.

mod samples;
mod tests;
