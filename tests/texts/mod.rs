//! Tests of the texts that an auction writes and reads: results, proof logs, transcripts and undecided tests.

mod undecided_steps;
mod logs;
mod results;
mod transcripts;
mod verified;
mod complete_texts;
