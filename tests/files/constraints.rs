//! Tests of `constraint_files`.

mod tests;
