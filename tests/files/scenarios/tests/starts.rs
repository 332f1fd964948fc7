//! The scenario of only the start set.

use pack_defs::fall::Fall;
use pack_defs::owners::{OwnerLine, Owners};
use pack_defs::scenario::Scenario;
use scenario_json::scenario::read_scenario;
use scenario_json::start_only::start_only;
use std::alloc::{AllocError as NoMemory, Global};
use std::test::Fail;

// The text before the stations, with a price that falls by a list or by rate, and the text after the stations.
const LISTED: &str = r#"{"version":1,"top":20,"opening":100,"decrements":[40,40],"stations":"#;

const RATED: &str = r#"{"version":2,"top":20,"opening":100,"rate":400,"floor":200,"stations":"#;

const WORKERS: &str = r#","workers":[{"kind":"walk","budget":7},{"kind":"cdcl","budget":1000}]}"#;

// No value, and values above, at and below the opening offers. These are 100 and 300.
const STATIONS: &str =
    r#"[{"id":7,"volume":3,"value":101},{"id":1,"volume":1},{"id":2,"volume":1,"value":101},{"id":3,"volume":1,"value":100},{"id":4,"volume":1,"value":99},{"id":5,"volume":3,"value":300},{"id":6,"volume":3,"value":301},{"id":8,"volume":3,"value":null}]"#;

// None of these stations declines the opening offer.
const TAKERS: &str = r#"[{"id":1,"volume":1,"value":100},{"id":2,"volume":1,"value":0}]"#;

// A scenario, a top channel, and the stations that `start_only` keeps.
struct Row {
    fall: &'static str,
    stations: &'static str,
    // The owners' lines, if the auction is live: the round, the station, whether it stays.
    lines: Option<&'static [(u32, u32, bool)]>,
    top: u8,
    left: &'static [u32],
}

const ROWS: &[Row] = &[
    Row {
        fall: LISTED,
        stations: STATIONS,
        lines: None,
        top: 51,
        left: &[1, 2, 6, 8],
    },
    Row {
        fall: RATED,
        stations: STATIONS,
        lines: None,
        top: 14,
        left: &[1, 2, 6, 8],
    },
    Row {
        fall: LISTED,
        stations: TAKERS,
        lines: None,
        top: 20,
        left: &[],
    },
    // Stations 1 and 5 stay and station 2 leaves. Station 3 says only that it stays in round 1.
    Row {
        fall: LISTED,
        stations: STATIONS,
        lines: Some(&[(0, 1, true), (0, 2, false), (1, 3, true), (0, 5, true)]),
        top: 20,
        left: &[2, 3, 4, 6, 7, 8],
    },
];

// Returns the owners with these lines.
fn owners_of(alloc: Global, lines: &[(u32, u32, bool)]) -> Result<Owners, NoMemory> {
    let mut owners = Owners::new(alloc);
    for (round, station, stays) in lines {
        let line = OwnerLine {
            round: *round,
            station: *station,
            stays: *stays,
        };
        let _added = owners.add(line)?;
    }
    Ok(owners)
}

// Checks whether the stations have exactly these ids, in this order.
fn are(only: &Scenario, ids: &[u32]) -> bool {
    let stations = only.stations.as_slice();
    if stations.len() != ids.len() {
        return false;
    }
    for (station, id) in stations.iter().zip(ids) {
        if station.id != *id {
            return false;
        }
    }
    true
}

// Checks whether the price never falls.
fn never_falls(only: &Scenario) -> bool {
    match &only.fall {
        Fall::Listed(decrements) => decrements.as_slice().is_empty(),
        Fall::Rated { .. } => false,
    }
}

// Returns the number of owner lines, or `None` without owners.
fn lines_said(only: &Scenario) -> Option<usize> {
    match &only.owners {
        Some(owners) => Some(owners.lines().len()),
        None => None,
    }
}

// Checks whether `start_only` returns what the row expects.
fn is_left(alloc: Global, sc: &Scenario, row: &Row) -> Result<bool, NoMemory> {
    if row.top < 14 || row.top > 51 {
        return Ok(false);
    }
    let only = start_only(alloc, sc, row.top)?;
    let rest = only.version == 1 && only.top == row.top && only.opening == 100;
    let said = lines_said(&only) == lines_said(sc) && only.workers.as_slice().len() == 2;
    Ok(rest && said && never_falls(&only) && are(&only, row.left))
}

// Checks whether the row's scenario is read, and `start_only` returns what the row expects.
fn is_answered(alloc: Global, row: &Row) -> Result<bool, NoMemory> {
    let fall = row.fall;
    let stations = row.stations;
    let text = format!(in alloc; "{fall}{stations}{WORKERS}")?;
    let Ok(sc) = read_scenario(alloc, text.as_bytes()) else {
        return Ok(false);
    };
    let Some(lines) = row.lines else {
        return is_left(alloc, &sc, row);
    };
    let owners = owners_of(alloc, lines)?;
    let live = sc.with_owners(alloc, &owners)?;
    is_left(alloc, &live, row)
}

#[test]
fn leaves_those_that_start_on_air(rt: HostRuntime) -> Result<(), Fail> {
    for (place, row) in ROWS.iter().enumerate() {
        assert_eq!(rt; (place, is_answered(rt.alloc(), row)?), (place, true));
    }
    Ok(())
}
