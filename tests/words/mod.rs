//! Tests of the command line's words: their command, invalid words, and names that are given twice.

mod commands;
mod names;
mod reading;
