//! Tests of `answer_board`.

mod pass_tests;
mod tests;
