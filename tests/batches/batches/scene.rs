//! The input of a batch, its run, and the facts that the run leaves.

use crate::scenes::change::Change;
use crate::scenes::named::{named_folder, named_text};
use crate::scenes::outside::run_in;
use crate::scenes::run_outputs::{are_among, file_text};
use outside_io::memory_folder::MemoryFolder;
use solver_gate::gate::EmptyGate;
use std::alloc::{AllocError as NoMemory, Global};
use std::sync::Wait;
use std::thread::Threads;

/// The command line of a batch over the list `l.csv`.
pub const BATCH: &str = "repack batch d.csv r.csv l.csv";

// The files in which a row may store results.
const RESULTS: &[&str] = &["1.csv", "2.csv", "3.csv", "4.csv", "5.csv", "20.csv"];

// Returns the contents of the result files.
fn results_text(alloc: Global, folder: &MemoryFolder) -> Result<String, NoMemory> {
    let mut facts = String::from_str(alloc, "results")?;
    for name in RESULTS {
        let fact = file_text(alloc, folder, name)?;
        facts.push_str("; ")?;
        facts.push_str(&fact)?;
    }
    Ok(facts)
}

// Runs this command line over this list. Returns the facts that are left, separated by "; ".
fn run<W: Threads + Wait + Sync>(
    rt: &W,
    alloc: Global,
    line: &str,
    list: &str,
    change: Change<'_>,
) -> Result<String, NoMemory> {
    let mut folder = named_folder(alloc, change, "l.csv", list)?;
    let left = run_in(rt, alloc, line, change, &mut folder, &EmptyGate)?;
    let results = results_text(alloc, &folder)?;
    let inputs = named_text(alloc, &folder, change, "l.csv", list)?;
    format!(in alloc; "{left}; {results}; {inputs}")
}

/// Checks whether the run of this command line over this list leaves these facts.
pub fn outputs_match<W: Threads + Wait + Sync>(
    rt: &W,
    alloc: Global,
    line: &str,
    list: &str,
    change: Change<'_>,
    facts: &str,
) -> Result<bool, NoMemory> {
    let told = run(rt, alloc, line, list, change)?;
    Ok(are_among(facts, &told))
}

/// Returns the facts of the first row that a batch does not leave.
pub fn first_untrue<'a, W: Threads + Wait + Sync>(
    rt: &W,
    alloc: Global,
    table: &[(&str, Change<'_>, &'a str)],
) -> Result<Option<&'a str>, NoMemory> {
    for &(list, change, facts) in table {
        if !outputs_match(rt, alloc, BATCH, list, change, facts)? {
            return Ok(Some(facts));
        }
    }
    Ok(None)
}
