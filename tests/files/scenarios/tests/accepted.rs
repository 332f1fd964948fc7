//! What the reader returns for accepted scenarios.

use crate::files::scenarios::tests::{TEXT, WORKERS, changed, first_not, first_value};
use pack_defs::fall::Fall;
use pack_defs::scenario::Scenario;
use pack_defs::worker::Kind;
use scenario_json::scenario::read_scenario;
use std::alloc::{AllocError as NoMemory, Global};
use std::test::Fail;

// Returns the decrements, which are empty if the price falls by rate.
fn decrements_of(scenario: &Scenario) -> &[u32] {
    match &scenario.fall {
        Fall::Listed(decrements) => decrements.as_slice(),
        Fall::Rated { .. } => &[],
    }
}

// Checks whether the text's numbers and decrements are read.
fn reads_numbers(alloc: Global) -> bool {
    let Ok(scenario) = read_scenario(alloc, TEXT.as_bytes()) else {
        return false;
    };
    scenario.version == 1
        && scenario.top == 15
        && scenario.opening == 100
        && decrements_of(&scenario) == [40, 40].as_slice()
}

// Checks whether the text with one part replaced has these stations, with their volumes and values.
fn reads_stations(
    alloc: Global,
    part: &str,
    other: &str,
    stations: &[(u32, u32, Option<u64>)],
) -> Result<bool, NoMemory> {
    let Some(text) = changed(alloc, part, other)? else {
        return Ok(false);
    };
    let Ok(scenario) = read_scenario(alloc, text.as_bytes()) else {
        return Ok(false);
    };
    let read = scenario.stations.as_slice();
    Ok(
        read.len() == stations.len()
            && read
                .iter()
                .zip(stations)
                .all(|(x, station)| (x.id, x.volume, x.value) == *station),
    )
}

#[test]
fn reads_three_stations(rt: HostRuntime) -> Result<(), Fail> {
    assert!(rt; reads_numbers(rt.alloc()));
    const READ: &[(u32, u32, Option<u64>)] = &[
        (1, 1, Some(50)),
        (2, 1, Some(70)),
        (3, 1, Some(10)),
    ];
    assert!(rt; reads_stations(rt.alloc(), "", "", READ)?);
    Ok(())
}

// Checks whether the text with this list of workers has these workers.
fn reads_workers(
    alloc: Global,
    list: &str,
    workers: &[(Kind, u32, u64)],
) -> Result<bool, NoMemory> {
    let Some(text) = changed(alloc, WORKERS, list)? else {
        return Ok(false);
    };
    let Ok(scenario) = read_scenario(alloc, text.as_bytes()) else {
        return Ok(false);
    };
    let read = scenario.workers.as_slice();
    Ok(
        read.len() == workers.len()
            && read
                .iter()
                .zip(workers)
                .all(|(x, worker)| (x.kind, x.budget, x.seed) == *worker),
    )
}

#[test]
fn reads_four_workers(rt: HostRuntime) -> Result<(), Fail> {
    const LIST: &str =
        r#"[{"seed":18446744073709551615,"budget":1000000,"kind":"walk"},{"kind":"cdcl","budget":7},{"kind":"walk","budget":1},{"kind":"cdcl","budget":100000,"seed":5}]"#;
    const READ: &[(Kind, u32, u64)] = &[
        (Kind::Walk, 1_000_000, 18_446_744_073_709_551_615),
        (Kind::Cdcl, 7, 0),
        (Kind::Walk, 1, 0),
        (Kind::Cdcl, 100_000, 5),
    ];
    assert!(rt; reads_workers(rt.alloc(), LIST, READ)?);
    Ok(())
}

#[test]
fn reads_stations_in_any_order(rt: HostRuntime) -> Result<(), Fail> {
    const READ: &[(u32, u32, Option<u64>)] = &[
        (2, 1, Some(70)),
        (3, 1, Some(10)),
        (4_294_967_295, 1, Some(50)),
    ];
    let other = r#""id":4294967295"#;
    assert!(rt; reads_stations(rt.alloc(), r#""id":1"#, other, READ)?);
    Ok(())
}

// Returns the replacement of the first row with another value of station 1.
fn first_value_otherwise<'a>(
    alloc: Global,
    rows: &[(&'a str, Option<u64>)],
) -> Result<Option<&'a str>, NoMemory> {
    for (other, value) in rows {
        let stations = [(1, 1, *value), (2, 1, Some(70)), (3, 1, Some(10))];
        if !reads_stations(alloc, r#","value":50"#, other, &stations)? {
            return Ok(Some(other));
        }
    }
    Ok(None)
}

#[test]
fn reads_values(rt: HostRuntime) -> Result<(), Fail> {
    const ROWS: &[(&str, Option<u64>)] = &[
        ("", None),
        (r#","value":null"#, None),
        (r#","value":0"#, Some(0)),
        (r#","value":101"#, Some(101)),
        (r#","value":1000000000000000"#, Some(1_000_000_000_000_000)),
        (r#","value":7,"value":null"#, None),
    ];
    assert_eq!(rt; first_value_otherwise(rt.alloc(), ROWS)?, None);
    Ok(())
}

// Returns the rate and the floor, or `None` if the price falls by a list.
fn rate_and_floor(scenario: &Scenario) -> Option<(u32, u32)> {
    match &scenario.fall {
        Fall::Listed(_) => None,
        Fall::Rated { rate, floor } => Some((*rate, *floor)),
    }
}

// A part of the text, its replacement, and the version, rate and floor that are read.
type FallRow<'a> = (&'a str, &'a str, u32, Option<(u32, u32)>);

// Checks whether the changed text is read with this version, rate and floor, and without owners.
fn reads_fall(alloc: Global, row: &FallRow<'_>) -> Result<bool, NoMemory> {
    let (part, other, version, by_rate) = *row;
    let Some(text) = changed(alloc, part, other)? else {
        return Ok(false);
    };
    let Ok(scenario) = read_scenario(alloc, text.as_bytes()) else {
        return Ok(false);
    };
    Ok(
        scenario.version == version
            && rate_and_floor(&scenario) == by_rate
            && scenario.owners.is_none(),
    )
}

// Returns the replacement of the first row that is read otherwise.
fn first_fall_otherwise<'a>(
    alloc: Global,
    rows: &[FallRow<'a>],
) -> Result<Option<&'a str>, NoMemory> {
    for row in rows {
        if !reads_fall(alloc, row)? {
            return Ok(Some(row.1));
        }
    }
    Ok(None)
}

// The reader ignores the members of the other version's price fall, whatever they hold.
#[test]
fn reads_the_fall_of_its_version(rt: HostRuntime) -> Result<(), Fail> {
    const ROWS: &[FallRow<'static>] = &[
        (
            r#""version":1"#,
            r#""version":2,"rate":400,"floor":200"#,
            2,
            Some((400, 200)),
        ),
        (
            "[40,40]",
            r#"[60,41,null],"version":2,"rate":1,"floor":0"#,
            2,
            Some((1, 0)),
        ),
        (
            "[40,40]",
            r#""x","version":2,"floor":7,"rate":3"#,
            2,
            Some((3, 7)),
        ),
        (
            r#""version":1"#,
            r#""version":1,"rate":0,"floor":1001"#,
            1,
            None,
        ),
        (
            r#""version":1"#,
            r#""version":1,"rate":null,"floor":"x""#,
            1,
            None,
        ),
    ];
    assert_eq!(rt; first_fall_otherwise(rt.alloc(), ROWS)?, None);
    Ok(())
}

#[test]
fn accepts_the_limits_themselves(rt: HostRuntime) -> Result<(), Fail> {
    const ROWS: &[(&str, &str)] = &[
        (r#""top":15"#, r#""top":14"#),
        (r#""top":15"#, r#""top":51"#),
        (r#""opening":100"#, r#""opening":80"#),
        (r#""opening":100"#, r#""opening":1000000"#),
        (r#"100,"decrements":[40,40]"#, r#"1,"decrements":[1]"#),
        (
            r#"100,"decrements":[40,40]"#,
            r#"1000000,"decrements":[1000000]"#,
        ),
        ("[40,40]", "[60,40]"),
        ("[40,40]", "[]"),
        (
            r#"1,"top":15,"opening":100,"decrements":[40,40]"#,
            r#"2,"top":15,"opening":100,"rate":1,"floor":0"#,
        ),
        (r#""version":1"#, r#""version":2,"rate":1000,"floor":1000"#),
        (r#""id":1"#, r#""id":0"#),
        (r#""volume":1,"#, r#""volume":1000000,"#),
        (r#""budget":1000"#, r#""budget":1"#),
        (r#""budget":1000"#, r#""budget":100000"#),
        (r#""budget":1000"#, r#""budget":1000,"seed":0"#),
        (
            r#""workers":["#,
            r#""workers":[{"kind":"walk","budget":1},"#,
        ),
        (
            r#""workers":["#,
            r#""workers":[{"kind":"walk","budget":1000000},"#,
        ),
    ];
    assert_eq!(rt; first_not(rt.alloc(), None, ROWS)?, None);
    Ok(())
}

// Returns the first value with which the text is not accepted. The value belongs to a member with an unknown name, placed before one of
// three known members.
fn first_not_passed_over<'a>(
    alloc: Global,
    values: &[&'a str],
) -> Result<Option<&'a str>, NoMemory> {
    for (part, after) in [
        (r#""version":1"#, r#","version":1"#),
        (r#""id":2"#, r#","id":2"#),
        (r#""budget":1000"#, r#","budget":1000"#),
    ] {
        let found = first_value(alloc, values, None, part, r#""band":"#, after)?;
        if found.is_some() {
            return Ok(found);
        }
    }
    Ok(None)
}

#[test]
fn other_members_are_skipped(rt: HostRuntime) -> Result<(), Fail> {
    const VALUES: &[&str] = &[
        "null",
        "true",
        "-1.5e3",
        r#""UHF""#,
        r#"[1,"two",{}]"#,
        r#"{"top":52}"#,
    ];
    assert_eq!(rt; first_not_passed_over(rt.alloc(), VALUES)?, None);
    Ok(())
}
