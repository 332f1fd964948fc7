//! Tests of `scenario_json`.

mod tests;
