//! Tests of `outside_io`.

mod tests;
