//! Tests of `batch_list`.

mod tests;
