//! Tests of certificates: clauses, formulas and proof logs, the first error of a channel map, and the component of a station.
mod assignments;
mod books;
mod changes;
mod clause_lists;
mod components;
mod formulas;
mod map_faults;
mod proof_logs;
