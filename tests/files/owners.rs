//! Tests of `owner_line`.

mod tests;
