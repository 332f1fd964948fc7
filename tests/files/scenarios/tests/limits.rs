//! Members outside their limits, and lists of too few or too many items.

use crate::files::scenarios::tests::{
    DECREMENTS, Fault, STATIONS, WORKERS, first_otherwise, is_answered, says,
};
use scenario_json::name::Name;
use std::alloc::{AllocError as NoMemory, Global};
use std::test::Fail;

#[test]
fn members_out_of_their_limits(rt: HostRuntime) -> Result<(), Fail> {
    const ROWS: &[(&str, &str, Option<Fault>)] = &[
        (
            r#""version":1"#,
            r#""version":0"#,
            Some(Fault::Outside(Name::Version, 0)),
        ),
        (
            r#""version":1"#,
            r#""version":3"#,
            Some(Fault::Outside(Name::Version, 0)),
        ),
        (
            r#""top":15"#,
            r#""top":13"#,
            Some(Fault::Outside(Name::Top, 0)),
        ),
        (
            r#""top":15"#,
            r#""top":52"#,
            Some(Fault::Outside(Name::Top, 0)),
        ),
        (
            r#""top":15"#,
            r#""top":18446744073709551615"#,
            Some(Fault::Outside(Name::Top, 0)),
        ),
        (
            r#""opening":100"#,
            r#""opening":0"#,
            Some(Fault::Outside(Name::Opening, 0)),
        ),
        (
            r#""opening":100"#,
            r#""opening":1000001"#,
            Some(Fault::Outside(Name::Opening, 0)),
        ),
        (
            r#""version":1"#,
            r#""version":2,"rate":0,"floor":0"#,
            Some(Fault::Outside(Name::Rate, 0)),
        ),
        (
            r#""version":1"#,
            r#""version":2,"rate":1001,"floor":0"#,
            Some(Fault::Outside(Name::Rate, 0)),
        ),
        (
            r#""version":1"#,
            r#""version":2,"rate":1,"floor":1001"#,
            Some(Fault::Outside(Name::Floor, 0)),
        ),
        (
            "[40,40]",
            "[0,40]",
            Some(Fault::Outside(Name::Decrements, 1)),
        ),
        (
            "[40,40]",
            "[40,40,0]",
            Some(Fault::Outside(Name::Decrements, 3)),
        ),
        (
            "[40,40]",
            "[40,1000001]",
            Some(Fault::Outside(Name::Decrements, 2)),
        ),
        (
            r#""id":3"#,
            r#""id":4294967296"#,
            Some(Fault::Outside(Name::Id, 3)),
        ),
        (
            r#""volume":1"#,
            r#""volume":0"#,
            Some(Fault::Outside(Name::Volume, 1)),
        ),
        (
            r#""volume":1"#,
            r#""volume":1000001"#,
            Some(Fault::Outside(Name::Volume, 1)),
        ),
        (
            r#""value":70"#,
            r#""value":1000000000000001"#,
            Some(Fault::Outside(Name::Value, 2)),
        ),
        (
            r#""cdcl""#,
            r#""CDCL""#,
            Some(Fault::Outside(Name::Kind, 1)),
        ),
        (
            r#""cdcl""#,
            r#""Walk""#,
            Some(Fault::Outside(Name::Kind, 1)),
        ),
        (
            r#""cdcl""#,
            r#""WALK""#,
            Some(Fault::Outside(Name::Kind, 1)),
        ),
        (
            r#""cdcl""#,
            r#""walker""#,
            Some(Fault::Outside(Name::Kind, 1)),
        ),
        (r#""cdcl""#, r#""wal""#, Some(Fault::Outside(Name::Kind, 1))),
        (r#""cdcl""#, r#""""#, Some(Fault::Outside(Name::Kind, 1))),
        (
            r#""budget":1000"#,
            r#""budget":0"#,
            Some(Fault::Outside(Name::Budget, 1)),
        ),
        (
            r#""budget":1000"#,
            r#""budget":100001"#,
            Some(Fault::Outside(Name::Budget, 1)),
        ),
    ];
    assert_eq!(rt; first_otherwise(rt.alloc(), ROWS)?, None);
    Ok(())
}

// A budget outside the limits of its kind is rejected: lines for `cdcl`, moves for `walk`.
#[test]
fn budgets_out_of_the_limits_of_their_kind(rt: HostRuntime) -> Result<(), Fail> {
    const ROWS: &[(&str, &str, Option<Fault>)] = &[
        (
            WORKERS,
            r#"[{"kind":"cdcl","budget":0}]"#,
            Some(Fault::Outside(Name::Budget, 1)),
        ),
        (
            WORKERS,
            r#"[{"kind":"cdcl","budget":100001}]"#,
            Some(Fault::Outside(Name::Budget, 1)),
        ),
        (
            WORKERS,
            r#"[{"kind":"cdcl","budget":1000000}]"#,
            Some(Fault::Outside(Name::Budget, 1)),
        ),
        (
            WORKERS,
            r#"[{"kind":"walk","budget":0}]"#,
            Some(Fault::Outside(Name::Budget, 1)),
        ),
        (
            WORKERS,
            r#"[{"kind":"walk","budget":1000001}]"#,
            Some(Fault::Outside(Name::Budget, 1)),
        ),
        (
            WORKERS,
            r#"[{"kind":"cdcl","budget":100000},{"kind":"walk","budget":0}]"#,
            Some(Fault::Outside(Name::Budget, 2)),
        ),
        (
            WORKERS,
            r#"[{"kind":"cdcl","budget":100000},{"kind":"walk","budget":1000001}]"#,
            Some(Fault::Outside(Name::Budget, 2)),
        ),
        (
            WORKERS,
            r#"[{"kind":"walk","budget":1000000},{"kind":"cdcl","budget":100001}]"#,
            Some(Fault::Outside(Name::Budget, 2)),
        ),
    ];
    assert_eq!(rt; first_otherwise(rt.alloc(), ROWS)?, None);
    Ok(())
}

// Returns a list that repeats this item.
fn repeated(alloc: Global, item: &str, count: usize) -> Result<String, NoMemory> {
    let mut list = String::new(alloc);
    for i in 0..count {
        list.push_str(if i == 0 { "[" } else { "," })?;
        list.push_str(item)?;
    }
    list.push_str(if count == 0 { "[]" } else { "]" })?;
    Ok(list)
}

// Returns a list of `count` stations, numbered from 0.
fn numbered(alloc: Global, count: usize) -> Result<String, NoMemory> {
    let mut list = String::new(alloc);
    for i in 0..count {
        list.push_str(if i == 0 { "[" } else { "," })?;
        list.push_str(format!(in alloc; "{{\"id\":{i},\"volume\":1}}")?.as_str())?;
    }
    list.push_str(if count == 0 { "[]" } else { "]" })?;
    Ok(list)
}

// Checks whether a text with this many decrements, stations and workers is rejected for this cause, or accepted for `None`.
fn has_line_for(
    alloc: Global,
    decrements: usize,
    stations: usize,
    workers: usize,
    fault: Option<Fault>,
) -> Result<bool, NoMemory> {
    let decrements = repeated(alloc, "1", decrements)?;
    let stations = numbered(alloc, stations)?;
    let workers = repeated(alloc, r#"{"kind":"cdcl","budget":1}"#, workers)?;
    let text = format!(in alloc;
        "{{\"version\":1,\"top\":15,\"opening\":1000000,\"decrements\":{decrements},\"stations\":{stations},\"workers\":{workers}}}"
    )?;
    Ok(says(alloc, text.as_bytes(), fault))
}

// Returns the index of the first row of lengths with another outcome.
fn first_length(
    alloc: Global,
    rows: &[(usize, usize, usize, Option<Fault>)],
) -> Result<Option<usize>, NoMemory> {
    for (i, (decrements, stations, workers, fault)) in rows.iter().enumerate() {
        if !has_line_for(alloc, *decrements, *stations, *workers, *fault)? {
            return Ok(Some(i));
        }
    }
    Ok(None)
}

#[test]
fn lists_by_their_length(rt: HostRuntime) -> Result<(), Fail> {
    const ROWS: &[(usize, usize, usize, Option<Fault>)] = &[
        (0, 0, 1, None),
        (1_000, 8_192, 16, None),
        (1_001, 0, 1, Some(Fault::Outside(Name::Decrements, 0))),
        (0, 8_193, 1, Some(Fault::Outside(Name::Stations, 0))),
        (0, 0, 0, Some(Fault::Outside(Name::Workers, 0))),
        (0, 0, 17, Some(Fault::Outside(Name::Workers, 0))),
    ];
    assert_eq!(rt; first_length(rt.alloc(), ROWS)?, None);
    Ok(())
}

// Returns the first list that is not rejected for its length when `count` nulls replace it.
fn first_of_nulls<'a>(
    alloc: Global,
    rows: &[(&'a str, usize, Name)],
) -> Result<Option<&'a str>, NoMemory> {
    for (list, count, name) in rows {
        let nulls = repeated(alloc, "null", *count)?;
        let fault = Some(Fault::Outside(*name, 0));
        if !is_answered(alloc, list, nulls.as_str(), fault)? {
            return Ok(Some(list));
        }
    }
    Ok(None)
}

// The length of a list is checked before its items.
#[test]
fn length_before_items(rt: HostRuntime) -> Result<(), Fail> {
    const ROWS: &[(&str, usize, Name)] = &[
        (DECREMENTS, 1_001, Name::Decrements),
        (STATIONS, 8_193, Name::Stations),
        (WORKERS, 17, Name::Workers),
    ];
    assert_eq!(rt; first_of_nulls(rt.alloc(), ROWS)?, None);
    Ok(())
}
