//! The record that a run returns, as plain text.

use auction_core::record::{Ending, Record, Shown, Step};
use cert_types::answer::Receipt;
use std::alloc::{AllocError as NoMemory, Global};

// Appends a piece to a list, with `between` before all pieces except the first.
fn join(list: &mut String, between: &str, piece: &str) -> Result<(), NoMemory> {
    if !list.is_empty() {
        list.push_str(between)?;
    }
    list.push_str(piece)
}

// Returns the list, or "none" if it is empty.
fn list_text<'a>(list: &'a str) -> &'a str {
    if list.is_empty() { "none" } else { list }
}

// Returns the text of a receipt: how much was spent, and the unit.
fn receipt_text(alloc: Global, receipt: &Receipt) -> Result<String, NoMemory> {
    match receipt {
        Receipt::Lines(log) => {
            let count = log.lines.len();
            format!(in alloc; "{count} line")
        }
        Receipt::Moves(moves) => {
            let count = moves.as_slice().len();
            format!(in alloc; "{count} move")
        }
    }
}

// Returns the text of receipts, in order of worker.
fn receipts_text(alloc: Global, receipts: &[Receipt]) -> Result<String, NoMemory> {
    let mut list = String::new(alloc);
    for receipt in receipts {
        let piece = receipt_text(alloc, receipt)?;
        join(&mut list, " + ", &piece)?;
    }
    Ok(list)
}

// Returns how a test was decided.
fn shown_text(alloc: Global, shown: &Shown) -> Result<String, NoMemory> {
    match shown {
        Shown::Empty => String::from_str(alloc, "empty"),
        Shown::Fits(_) => String::from_str(alloc, "fits"),
        Shown::Same => String::from_str(alloc, "as before"),
        Shown::NoChannel(station) => format!(in alloc; "no channel for {station}"),
        Shown::Refuted { worker, .. } => format!(in alloc; "refuted by {worker}"),
        Shown::Outside(_) => String::from_str(alloc, "refuted from outside"),
        Shown::Undecided(receipts) => {
            let list = receipts_text(alloc, receipts.as_slice())?;
            format!(in alloc; "open after {list}")
        }
    }
}

// Returns the text of a test: the round, the station, and how it was decided.
fn step_text(alloc: Global, step: &Step) -> Result<String, NoMemory> {
    let round = step.round;
    let station = step.station;
    let shown = shown_text(alloc, &step.shown)?;
    format!(in alloc; "{round}.{station} {shown}")
}

// Returns the text of the tests, in order.
fn steps_text(alloc: Global, steps: &[Step]) -> Result<String, NoMemory> {
    let mut list = String::new(alloc);
    for step in steps {
        let piece = step_text(alloc, step)?;
        join(&mut list, ", ", &piece)?;
    }
    Ok(list)
}

// Returns the stations of a map.
fn stations_text(alloc: Global, map: &[(u32, u8)]) -> Result<String, NoMemory> {
    let mut list = String::new(alloc);
    for &(station, _) in map {
        let piece = format!(in alloc; "{station}")?;
        join(&mut list, ", ", &piece)?;
    }
    Ok(list)
}

// Returns the entries of a map.
fn map_text(alloc: Global, map: &[(u32, u8)]) -> Result<String, NoMemory> {
    let mut list = String::new(alloc);
    for &(station, channel) in map {
        let piece = format!(in alloc; "{station} on {channel}")?;
        join(&mut list, ", ", &piece)?;
    }
    Ok(list)
}

// Returns how an auction ended.
fn ending_text(ending: Ending) -> &'static str {
    match ending {
        Ending::Done => "done",
        Ending::StartRefuted => "start refuted",
        Ending::StartUndecided => "start open",
    }
}

// Returns the text of a record's map.
fn map_text_of(alloc: Global, map: &[(u32, u8)]) -> Result<String, NoMemory> {
    let list = stations_text(alloc, map)?;
    let stations = list_text(&list);
    let list = map_text(alloc, map)?;
    let entries = list_text(&list);
    format!(in alloc; "on air: {stations}; map: {entries}")
}

// Returns the text of a record's start and tests.
fn tests_text(alloc: Global, record: &Record) -> Result<String, NoMemory> {
    let start = shown_text(alloc, &record.start)?;
    let list = steps_text(alloc, record.steps.as_slice())?;
    let steps = list_text(&list);
    format!(in alloc; "start: {start}; tests: {steps}")
}

// Returns the text of a record.
fn record_text(alloc: Global, record: &Record) -> Result<String, NoMemory> {
    let ending = ending_text(record.ending);
    let total = record.total;
    let tests = tests_text(alloc, record)?;
    let air = map_text_of(alloc, record.map.entries())?;
    format!(in alloc; "a record; ending: {ending}; {tests}; {air}; total: {total}")
}

/// Returns the text of the record that the run returned, if any.
pub fn found_text(alloc: Global, found: &Option<Record>) -> Result<String, NoMemory> {
    match found {
        Some(record) => record_text(alloc, record),
        None => String::from_str(alloc, "no record"),
    }
}

/// Returns how the start test with one channel fewer was decided, if there was one.
pub fn below_text(alloc: Global, below: &Option<Record>) -> Result<String, NoMemory> {
    match below {
        Some(record) => below_record_text(alloc, record),
        None => String::from_str(alloc, "no record below"),
    }
}

fn below_record_text(alloc: Global, record: &Record) -> Result<String, NoMemory> {
    let ending = ending_text(record.ending);
    match &record.start {
        Shown::Undecided(receipts) => {
            let list = receipts_text(alloc, receipts.as_slice())?;
            format!(in alloc; "below: {ending} after {list}")
        }
        _ => format!(in alloc; "below: {ending}"),
    }
}

/// Returns how the auctions of a batch ended, in order.
pub fn records_text(alloc: Global, records: &[Record]) -> Result<String, NoMemory> {
    let mut list = String::new(alloc);
    for record in records {
        join(&mut list, ", ", ending_text(record.ending))?;
    }
    let endings = list_text(&list);
    format!(in alloc; "records: {endings}")
}
