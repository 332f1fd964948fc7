//! Tests of `threshold_laws`.

mod tests;
