//! A folder and a sink in memory, and a run of the program on them.

use crate::scenes::change::Change;
use crate::scenes::run_outputs::run_text;
use auction_cmd::auction::auction_main;
use outside_io::memory_folder::{MemoryFile, MemoryFolder};
use outside_io::memory_sink::MemorySink;
use solver_gate::gate::Gate;
use std::alloc::{AllocError as NoMemory, Global};
use std::sync::Wait;
use std::thread::Threads;

/// Adds the input of this name to the files, unless the change removes it. Without a change the input has `text`.
pub fn add(
    files: &mut Vec<MemoryFile>,
    change: Change<'_>,
    name: &str,
    text: &str,
) -> Result<(), NoMemory> {
    let alloc = *files.allocator();
    if let Some(bytes) = change.held(name, text) {
        files.push(MemoryFile::new(alloc, name, bytes)?)?;
    }
    Ok(())
}

/// Checks whether the input of this name is unchanged by the run.
pub fn is_kept(folder: &MemoryFolder, change: Change<'_>, name: &str, text: &str) -> bool {
    match (folder.bytes(name), change.held(name, text)) {
        (Some(now), Some(before)) => now == before,
        (None, None) => true,
        _ => false,
    }
}

// Returns the list of this one number, or the empty list.
fn list_of(alloc: Global, number: Option<u64>) -> Result<Vec<u64>, NoMemory> {
    match number {
        Some(number) => Vec::from_slice(alloc, &[number]),
        None => Ok(Vec::new(alloc)),
    }
}

/// Returns the folder of these files, whose call fails as the change says.
pub fn folder_of(
    alloc: Global,
    files: Vec<MemoryFile>,
    change: Change<'_>,
) -> Result<MemoryFolder, NoMemory> {
    let failing = list_of(alloc, change.failing_call())?;
    Ok(MemoryFolder::new(files, failing))
}

// Returns the sink, whose write fails as the change says.
fn sink_of(alloc: Global, change: Change<'_>) -> Result<MemorySink, NoMemory> {
    let failing = list_of(alloc, change.failing_write())?;
    MemorySink::new(alloc, 9_999, failing)
}

// Returns the words of a command line.
fn words_of(alloc: Global, line: &str) -> Result<Vec<String>, NoMemory> {
    let mut words = Vec::new(alloc);
    for word in line.split_ascii_whitespace() {
        words.push(String::from_str(alloc, word)?)?;
    }
    Ok(words)
}

/// Runs the program on this command line in this folder. Returns the facts about the result, separated by "; ".
pub fn run_in<G: Gate + Sync, W: Threads + Wait + Sync>(
    rt: &W,
    alloc: Global,
    line: &str,
    change: Change<'_>,
    folder: &mut MemoryFolder,
    gate: &G,
) -> Result<String, NoMemory> {
    let words = words_of(alloc, line)?;
    let mut sink = sink_of(alloc, change)?;
    let finish = auction_main(rt, alloc, &words, folder, &mut sink, gate);
    run_text(alloc, &finish, folder, &sink)
}
