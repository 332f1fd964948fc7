//! Several scenarios as named files, with the domains and the rows of three stations. One more file may be a list or the beginning
//! of a transcript.

use crate::scenes::change::Change;
use crate::scenes::outside::{add, folder_of, is_kept};
use crate::scenes::stations::{
    CLOCK, DOMAINS, MANY_LINES, ONE_LINE, ROWS, THREE, THREE_PLAIN, scenario_text,
};
use crate::scenes::run_outputs::kept_text;
use outside_io::memory_folder::MemoryFolder;
use std::alloc::{AllocError as NoMemory, Global};

// The name of a scenario, its clock, stations and workers. In `plain` all three have values. In `high` station 2's value is above
// its opening offer. In `volume` station 3 has the greatest volume. In `low` only one channel is left. In `unfit` and `open` all three
// start on air, which does not fit; `open` and `short` have a budget of one line, and a refutation takes two. In `two` one worker
// learns one line and the other makes one move. `stranger` has a station without a domain row.
const SCENARIOS: &[(&str, &str, &str, &str)] = &[
    ("plain", CLOCK, THREE, MANY_LINES),
    (
        "high",
        CLOCK,
        "{\"id\":1,\"volume\":1,\"value\":50},{\"id\":2,\"volume\":1,\"value\":101},{\"id\":3,\"volume\":1,\"value\":10}",
        MANY_LINES,
    ),
    (
        "volume",
        CLOCK,
        "{\"id\":1,\"volume\":1,\"value\":50},{\"id\":2,\"volume\":1,\"value\":70},{\"id\":3,\"volume\":2,\"value\":10}",
        MANY_LINES,
    ),
    (
        "low",
        "\"top\":14,\"opening\":100,\"decrements\":[40,40]",
        THREE,
        MANY_LINES,
    ),
    ("unfit", CLOCK, THREE_PLAIN, MANY_LINES),
    ("open", CLOCK, THREE_PLAIN, ONE_LINE),
    ("short", CLOCK, THREE, ONE_LINE),
    (
        "two",
        CLOCK,
        THREE,
        "{\"kind\":\"cdcl\",\"budget\":1},{\"kind\":\"walk\",\"budget\":1}",
    ),
    (
        "stranger",
        "\"top\":15,\"opening\":100,\"decrements\":[]",
        "{\"id\":9,\"volume\":1}",
        ONE_LINE,
    ),
];

// The files that are not scenarios. `broken` is not JSON.
const OTHERS: &[(&str, &str)] = &[
    ("d.csv", DOMAINS),
    ("r.csv", ROWS),
    ("broken", "{\"version\":1,"),
];

/// Returns the folder of these files and one more with this name and text, after this change.
pub fn named_folder(
    alloc: Global,
    change: Change<'_>,
    name: &str,
    text: &str,
) -> Result<MemoryFolder, NoMemory> {
    let mut files = Vec::new(alloc);
    for &(name, text) in OTHERS {
        add(&mut files, change, name, text)?;
    }
    for &(name, clock, stations, workers) in SCENARIOS {
        let text = scenario_text(alloc, clock, stations, workers)?;
        add(&mut files, change, name, &text)?;
    }
    add(&mut files, change, name, text)?;
    folder_of(alloc, files, change)
}

// Checks whether the scenarios are unchanged.
fn are_scenarios_kept(
    alloc: Global,
    folder: &MemoryFolder,
    change: Change<'_>,
) -> Result<bool, NoMemory> {
    for &(name, clock, stations, workers) in SCENARIOS {
        let text = scenario_text(alloc, clock, stations, workers)?;
        if !is_kept(folder, change, name, &text) {
            return Ok(false);
        }
    }
    Ok(true)
}

// Checks whether the other files are unchanged.
fn are_others_kept(folder: &MemoryFolder, change: Change<'_>) -> bool {
    OTHERS
        .iter()
        .all(|&(name, text)| is_kept(folder, change, name, text))
}

/// Returns what happened to the files of this folder: "inputs kept" or "inputs changed".
pub fn named_text(
    alloc: Global,
    folder: &MemoryFolder,
    change: Change<'_>,
    name: &str,
    text: &str,
) -> Result<&'static str, NoMemory> {
    let are_kept = are_scenarios_kept(alloc, folder, change)?;
    Ok(kept_text(
        are_kept && are_others_kept(folder, change) && is_kept(folder, change, name, text),
    ))
}
