//! Tests of `pack_defs`.

mod book_tests;
mod map_tests;
mod owner_tests;
