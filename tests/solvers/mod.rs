//! Answers of the solvers, and the trail that they search on.

mod learners;
mod quick_fits;
mod plain;
mod racers;
mod samples;
mod trails;
mod walkers;
