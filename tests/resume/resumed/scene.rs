//! The input of a resumed auction, its run, and the facts about its result.

use crate::scenes::change::Change;
use crate::scenes::named::{named_folder, named_text};
use crate::scenes::outside::run_in;
use crate::scenes::run_outputs::are_among;
use outside_io::memory_folder::MemoryFolder;
use solver_gate::gate::{Gate, Spot};
use std::alloc::{AllocError as NoMemory, Global};
use std::sync::Wait;
use std::sync::atomic::{AtomicU64, Ordering};
use std::thread::Threads;

// A gate that keeps the number of the first query that a worker reached, or 0 if none did.
#[derive(Drop)]
struct FirstAsked {
    number: AtomicU64,
}

impl Gate for FirstAsked {
    fn at(&self, spot: Spot, worker: u32, number: u64) {
        let _ = (spot, worker);
        let _ = self
            .number
            .compare_exchange(0, number, Ordering::SeqCst, Ordering::SeqCst);
    }
}

// Checks whether the stored transcript begins with this text.
fn begins(folder: &MemoryFolder, kept: &str) -> bool {
    match folder.bytes("tr.txt") {
        Some(bytes) => bytes.starts_with(kept.as_bytes()),
        None => false,
    }
}

// Returns whether the stored transcript continues the kept part.
fn goes_on_text(folder: &MemoryFolder, kept: &str) -> &'static str {
    if begins(folder, kept) {
        return "goes on";
    }
    "begins otherwise"
}

// Returns the number of the first query that a worker reached.
fn asked_text(alloc: Global, gate: &FirstAsked) -> Result<String, NoMemory> {
    let number = gate.number.load(Ordering::SeqCst);
    if number == 0 {
        return String::from_str(alloc, "nothing asked");
    }
    format!(in alloc; "asked from query {number}")
}

// Runs this command line with this beginning of a transcript. Returns the facts about the result, separated by "; ". `kept` is the
// expected beginning of the stored transcript.
fn run<W: Threads + Wait + Sync>(
    rt: &W,
    alloc: Global,
    line: &str,
    prefix: &str,
    kept: &str,
    change: Change<'_>,
) -> Result<String, NoMemory> {
    let mut folder = named_folder(alloc, change, "p.txt", prefix)?;
    let gate = FirstAsked {
        number: AtomicU64::new(0),
    };
    let left = run_in(rt, alloc, line, change, &mut folder, &gate)?;
    let asked = asked_text(alloc, &gate)?;
    let goes_on = goes_on_text(&folder, kept);
    let inputs = named_text(alloc, &folder, change, "p.txt", prefix)?;
    format!(in alloc; "{left}; {asked}; {goes_on}; {inputs}")
}

/// Checks whether a run of this command line with this beginning has these facts. The stored transcript should begin with `kept`.
pub fn outputs_match<W: Threads + Wait + Sync>(
    rt: &W,
    alloc: Global,
    line: &str,
    prefix: &str,
    kept: &str,
    change: Change<'_>,
    facts: &str,
) -> Result<bool, NoMemory> {
    let told = run(rt, alloc, line, prefix, kept, change)?;
    Ok(are_among(facts, &told))
}

/// The beginning of a transcript, the part that the new transcript keeps, a change, and the expected facts.
pub type ResumeRow<'a> = (&'a str, &'a str, Change<'a>, &'a str);

// Returns the command line of a run with this scenario.
fn line_of(alloc: Global, scenario: &str) -> Result<String, NoMemory> {
    format!(in alloc; "repack resume d.csv r.csv {scenario} p.txt out.csv chan.csv tr.txt")
}

/// Returns the facts of the first row that has a fact which is not true of a run with this scenario.
pub fn first_untrue<'a, W: Threads + Wait + Sync>(
    rt: &W,
    alloc: Global,
    scenario: &str,
    table: &[ResumeRow<'a>],
) -> Result<Option<&'a str>, NoMemory> {
    let line = line_of(alloc, scenario)?;
    for &(prefix, kept, change, facts) in table {
        if !outputs_match(rt, alloc, &line, prefix, kept, change, facts)? {
            return Ok(Some(facts));
        }
    }
    Ok(None)
}
