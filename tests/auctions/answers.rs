//! Tests of `cert_types`.

mod changes_tests;
mod fresh_tests;
mod kept_tests;
mod receipt_tests;
mod samples;
mod tests;
