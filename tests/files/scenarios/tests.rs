//! Scenarios that are accepted, rejected and written.

mod accepted;
mod joined;
mod kinds;
mod limits;
mod order;
mod starts;
mod texts;
mod written;

use scenario_json::error::ScenarioErr;
use scenario_json::name::Name;
use scenario_json::scenario::read_scenario;
use std::alloc::{AllocError as NoMemory, Global};

// Three stations, two decrements and one worker.
const TEXT: &str =
    r#"{"version":1,"top":15,"opening":100,"decrements":[40,40],"stations":[{"id":1,"volume":1,"value":50},{"id":2,"volume":1,"value":70},{"id":3,"volume":1,"value":10}],"workers":[{"kind":"cdcl","budget":1000}]}"#;

// The lists of the text.
const DECREMENTS: &str = "[40,40]";

const STATIONS: &str =
    r#"[{"id":1,"volume":1,"value":50},{"id":2,"volume":1,"value":70},{"id":3,"volume":1,"value":10}]"#;

const WORKERS: &str = r#"[{"kind":"cdcl","budget":1000}]"#;

// The cause of a rejection, in short. The number is the place of the member.
#[derive(Clone, Copy)]
enum Fault {
    Missing(Name, u64),
    Wrong(Name, u64),
    Outside(Name, u64),
    Repeated(u32),
    Sum,
    NoProver,
    Syntax,
}

// Returns the error for this cause.
fn refusal(fault: Fault) -> ScenarioErr {
    match fault {
        Fault::Missing(name, at) => ScenarioErr::MissingField { name, at },
        Fault::Wrong(name, at) => ScenarioErr::WrongKind { name, at },
        Fault::Outside(name, at) => ScenarioErr::OutOfLimit { name, at },
        Fault::Repeated(station) => ScenarioErr::RepeatedStation(station),
        Fault::Sum => ScenarioErr::SumOverOpening,
        Fault::NoProver => ScenarioErr::NoProver,
        Fault::Syntax => ScenarioErr::Syntax,
    }
}

// Checks whether the reader rejects the bytes for this cause, or accepts them for `None`.
fn says(alloc: Global, bytes: &[u8], fault: Option<Fault>) -> bool {
    match (read_scenario(alloc, bytes), fault) {
        (Ok(_), None) => true,
        (Err(why), Some(fault)) => why == refusal(fault),
        _ => false,
    }
}

// Returns the text with one part replaced, or `None` if the text does not have this part.
fn changed(alloc: Global, part: &str, other: &str) -> Result<Option<String>, NoMemory> {
    let Some((before, after)) = TEXT.split_once(part) else {
        return Ok(None);
    };
    Ok(Some(format!(in alloc; "{before}{other}{after}")?))
}

// Checks whether the text with one part replaced is rejected for this cause, or accepted for `None`.
fn is_answered(
    alloc: Global,
    part: &str,
    other: &str,
    fault: Option<Fault>,
) -> Result<bool, NoMemory> {
    let Some(text) = changed(alloc, part, other)? else {
        return Ok(false);
    };
    Ok(says(alloc, text.as_bytes(), fault))
}

// Returns the replacement of the first row with another outcome.
fn first_otherwise<'a>(
    alloc: Global,
    rows: &[(&str, &'a str, Option<Fault>)],
) -> Result<Option<&'a str>, NoMemory> {
    for (part, other, fault) in rows {
        if !is_answered(alloc, part, other, *fault)? {
            return Ok(Some(other));
        }
    }
    Ok(None)
}

// Returns the same for rows that are all accepted, or all rejected for one cause.
fn first_not<'a>(
    alloc: Global,
    fault: Option<Fault>,
    rows: &[(&str, &'a str)],
) -> Result<Option<&'a str>, NoMemory> {
    for (part, other) in rows {
        if !is_answered(alloc, part, other, fault)? {
            return Ok(Some(other));
        }
    }
    Ok(None)
}

// Returns the first value with another outcome. Each value, between `before` and `after`, replaces a part of the text.
fn first_value<'a>(
    alloc: Global,
    values: &[&'a str],
    fault: Option<Fault>,
    part: &str,
    before: &str,
    after: &str,
) -> Result<Option<&'a str>, NoMemory> {
    for value in values {
        let other = format!(in alloc; "{before}{value}{after}")?;
        if !is_answered(alloc, part, other.as_str(), fault)? {
            return Ok(Some(value));
        }
    }
    Ok(None)
}

// Returns the part and `before` of the first row in which one of the values is not rejected for this cause.
fn first_place<'a>(
    alloc: Global,
    values: &[&str],
    rows: &[(&'a str, &'a str, &str, Fault)],
) -> Result<Option<(&'a str, &'a str)>, NoMemory> {
    for (part, before, after, fault) in rows {
        if first_value(alloc, values, Some(*fault), part, before, after)?.is_some() {
            return Ok(Some((part, before)));
        }
    }
    Ok(None)
}
