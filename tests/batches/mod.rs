//! Batches: runs of the complete program in memory over the scenarios of a list, and the cache of answers.

mod batches;
mod caches;
