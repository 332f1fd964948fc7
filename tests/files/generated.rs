//! Tests of `scenario_make`.

mod plain;
mod tests;
