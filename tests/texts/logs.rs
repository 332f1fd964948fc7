//! Tests of `lrat_text`.

mod tests;
