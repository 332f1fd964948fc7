//! Tests of books and maps, of folders and sinks, of the readers of an auction's input files, and of generated auctions.

mod books;
mod constraints;
mod folders;
mod lists;
mod generated;
mod owners;
mod scenarios;
