//! Tests of the commands `verify`, `show`, `show-live`, `export` and `import`, and of invalid files, which run the whole program with
//! `scenes`.

mod bad_files;
mod proofs;
mod invalid_steps;
mod shows;
mod verified;
