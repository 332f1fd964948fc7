//! The result of a run, as plain text.

use crate::scenes::record_text::{below_text, found_text, records_text};
use auction_core::record::Record;
use commands::finish::Finish;
use outside_io::memory_folder::MemoryFolder;
use outside_io::memory_sink::MemorySink;
use std::alloc::{AllocError as NoMemory, Global};

// Returns the bytes as text after a heading, or says that they are no text.
fn bytes_text(alloc: Global, heading: &str, bytes: &[u8]) -> Result<String, NoMemory> {
    match std::str::from_utf8(bytes) {
        Ok(text) => format!(in alloc; "{heading}: {text}"),
        Err(_) => format!(in alloc; "{heading} is no text"),
    }
}

/// Returns the text of the file of this name, or says that there is none.
pub fn file_text(alloc: Global, folder: &MemoryFolder, name: &str) -> Result<String, NoMemory> {
    match folder.bytes(name) {
        Some(bytes) => bytes_text(alloc, name, bytes),
        None => format!(in alloc; "no {name}"),
    }
}

// Checks whether the folder has none of the three outputs.
fn has_no_output(folder: &MemoryFolder) -> bool {
    folder.bytes("out.csv").is_none()
        && folder.bytes("chan.csv").is_none()
        && folder.bytes("tr.txt").is_none()
}

// Returns whether the folder has an output, stored by this run or before.
fn stored_text(folder: &MemoryFolder) -> &'static str {
    if has_no_output(folder) {
        return "nothing stored";
    }
    "something stored"
}

// Returns the text of the outputs.
fn outputs_text(alloc: Global, folder: &MemoryFolder) -> Result<String, NoMemory> {
    let stored = stored_text(folder);
    let result = file_text(alloc, folder, "out.csv")?;
    let channels = file_text(alloc, folder, "chan.csv")?;
    let transcript = file_text(alloc, folder, "tr.txt")?;
    let ends = ends_text(alloc, folder.bytes("tr.txt").unwrap_or(b""))?;
    format!(in alloc; "{stored}; {result}; {channels}; {transcript}; {ends}")
}

// Returns the first two lines of a transcript and the last one. The lines between depend on the solvers.
fn ends_text(alloc: Global, bytes: &[u8]) -> Result<String, NoMemory> {
    let text = std::str::from_utf8(bytes).unwrap_or("");
    let mut lines = text.lines();
    let version = lines.next().unwrap_or("none");
    let start = lines.next().unwrap_or("none");
    let last = lines.last().unwrap_or("none");
    format!(in alloc; "tr.txt begins: {version}, {start}; tr.txt ends: {last}")
}

// Returns the expected text of the channels of a map.
fn channels_of(alloc: Global, map: &[(u32, u8)]) -> Result<String, NoMemory> {
    let mut text = String::from_str(alloc, "facility,channel\n")?;
    for &(station, channel) in map {
        let line = format!(in alloc; "{station},{channel}\n")?;
        text.push_str(&line)?;
    }
    Ok(text)
}

// Returns whether the channels are those of the record's map.
fn channels_fact(
    alloc: Global,
    folder: &MemoryFolder,
    found: &Option<Record>,
) -> Result<&'static str, NoMemory> {
    let Some(bytes) = folder.bytes("chan.csv") else {
        return Ok("no channels");
    };
    let Some(record) = found else {
        return Ok("no record");
    };
    let text = channels_of(alloc, record.map.entries())?;
    if bytes == text.as_bytes() {
        return Ok("channels of the map");
    }
    Ok("other channels")
}

// Returns the text that the program wrote to the sink.
fn printed_text(alloc: Global, sink: &MemorySink) -> Result<String, NoMemory> {
    if sink.bytes().is_empty() {
        return String::from_str(alloc, "nothing said");
    }
    let said = bytes_text(alloc, "said", sink.bytes())?;
    format!(in alloc; "something said; {said}")
}

// Returns what the folder and the sink hold.
fn outside_text(
    alloc: Global,
    folder: &MemoryFolder,
    sink: &MemorySink,
) -> Result<String, NoMemory> {
    let said = printed_text(alloc, sink)?;
    let outputs = outputs_text(alloc, folder)?;
    format!(in alloc; "{said}; {outputs}")
}

// Returns the text of the records that the run returned.
fn records_told(alloc: Global, finish: &Finish) -> Result<String, NoMemory> {
    let found = found_text(alloc, &finish.result)?;
    let below = below_text(alloc, &finish.below)?;
    let records = records_text(alloc, finish.batch.as_slice())?;
    format!(in alloc; "{found}; {below}; {records}")
}

/// Returns the facts about the result of a run, separated by "; ".
pub fn run_text(
    alloc: Global,
    finish: &Finish,
    folder: &MemoryFolder,
    sink: &MemorySink,
) -> Result<String, NoMemory> {
    let status = finish.status;
    let outside = outside_text(alloc, folder, sink)?;
    let channels = channels_fact(alloc, folder, &finish.result)?;
    let records = records_told(alloc, finish)?;
    format!(in alloc; "status {status}; {outside}; {channels}; {records}")
}

/// Returns what happened to the inputs.
pub fn kept_text(are_kept: bool) -> &'static str {
    if are_kept {
        return "inputs kept";
    }
    "inputs changed"
}

/// Checks whether each of `facts` is among the facts in `run_outputs`.
pub fn are_among(facts: &str, told: &str) -> bool {
    facts
        .split("; ")
        .all(|fact| told.split("; ").any(|other| other == fact))
}

// Returns the text of the file of this name, unless the file is long.
fn short_text(alloc: Global, folder: &MemoryFolder, name: &str) -> Result<String, NoMemory> {
    match folder.bytes(name) {
        Some(bytes) if bytes.len() > 9_999 => format!(in alloc; "{name} is long"),
        _ => file_text(alloc, folder, name),
    }
}

/// Returns the texts of an auction's input files, separated by "; ".
pub fn held_text(alloc: Global, folder: &MemoryFolder) -> Result<String, NoMemory> {
    let domains = short_text(alloc, folder, "d.csv")?;
    let rows = short_text(alloc, folder, "r.csv")?;
    let scenario = short_text(alloc, folder, "s.json")?;
    format!(in alloc; "{domains}; {rows}; {scenario}")
}

/// Returns the texts of a formula's file and a new transcript, separated by "; ".
pub fn proof_text(alloc: Global, folder: &MemoryFolder) -> Result<String, NoMemory> {
    let formula = short_text(alloc, folder, "f.cnf")?;
    let transcript = short_text(alloc, folder, "new.txt")?;
    format!(in alloc; "{formula}; {transcript}")
}

/// Returns how many faults the folder has counted.
pub fn faults_text(alloc: Global, folder: &MemoryFolder) -> Result<String, NoMemory> {
    let text = format!(in alloc; "{folder:?}")?;
    match text.split_once("faults: ") {
        Some((_, rest)) => {
            let (count, _) = rest.split_once(' ').unwrap_or((rest, ""));
            format!(in alloc; "faults: {count}")
        }
        None => String::from_str(alloc, "faults: unknown"),
    }
}
