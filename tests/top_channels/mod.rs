//! Tests of the commands `seek` and `make`, which run the whole program with `scenes`.

mod generated;
mod search;
mod seek;
