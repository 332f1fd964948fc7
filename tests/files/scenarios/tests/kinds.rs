//! Missing members, and members of the wrong kind.

use crate::files::scenarios::tests::{
    DECREMENTS, Fault, STATIONS, TEXT, WORKERS, first_otherwise, first_place,
};
use scenario_json::name::Name;
use std::test::Fail;

// Values that are not an integer from 0 to 2^64 - 1 without point or exponent.
const NOT_NUMBERS: &[&str] = &[
    "true",
    "false",
    r#""1""#,
    "[1]",
    "{}",
    "-1",
    "-0",
    "1.0",
    "1.5",
    "1e2",
    "18446744073709551616",
    "100000000000000000000000000000",
];

#[test]
fn members_that_are_missing(rt: HostRuntime) -> Result<(), Fail> {
    const ROWS: &[(&str, &str, Option<Fault>)] = &[
        (
            r#""version":1,"#,
            "",
            Some(Fault::Missing(Name::Version, 0)),
        ),
        (r#""top":15,"#, "", Some(Fault::Missing(Name::Top, 0))),
        (
            r#""opening":100,"#,
            "",
            Some(Fault::Missing(Name::Opening, 0)),
        ),
        (
            r#""decrements":[40,40],"#,
            "",
            Some(Fault::Missing(Name::Decrements, 0)),
        ),
        (
            r#""decrements":[40,40]"#,
            r#""rate":400,"floor":200"#,
            Some(Fault::Missing(Name::Decrements, 0)),
        ),
        (
            r#""version":1"#,
            r#""version":2,"floor":200"#,
            Some(Fault::Missing(Name::Rate, 0)),
        ),
        (
            r#""version":1"#,
            r#""version":2,"rate":400"#,
            Some(Fault::Missing(Name::Floor, 0)),
        ),
        (
            r#""stations""#,
            r#""Stations""#,
            Some(Fault::Missing(Name::Stations, 0)),
        ),
        (
            r#""workers""#,
            r#""worker""#,
            Some(Fault::Missing(Name::Workers, 0)),
        ),
        (r#""id":2,"#, "", Some(Fault::Missing(Name::Id, 2))),
        (
            r#","volume":1,"value":10"#,
            "",
            Some(Fault::Missing(Name::Volume, 3)),
        ),
        (r#""kind":"cdcl","#, "", Some(Fault::Missing(Name::Kind, 1))),
        (
            r#","budget":1000"#,
            "",
            Some(Fault::Missing(Name::Budget, 1)),
        ),
        (TEXT, "{}", Some(Fault::Missing(Name::Version, 0))),
    ];
    assert_eq!(rt; first_otherwise(rt.alloc(), ROWS)?, None);
    Ok(())
}

#[test]
fn numbers_of_the_wrong_kind(rt: HostRuntime) -> Result<(), Fail> {
    const ROWS: &[(&str, &str, &str, Fault)] = &[
        (
            r#""version":1"#,
            r#""version":"#,
            "",
            Fault::Wrong(Name::Version, 0),
        ),
        (r#""top":15"#, r#""top":"#, "", Fault::Wrong(Name::Top, 0)),
        (
            r#""opening":100"#,
            r#""opening":"#,
            "",
            Fault::Wrong(Name::Opening, 0),
        ),
        ("[40,40", "[40,", "", Fault::Wrong(Name::Decrements, 2)),
        (
            r#""version":1"#,
            r#""version":2,"floor":0,"rate":"#,
            "",
            Fault::Wrong(Name::Rate, 0),
        ),
        (
            r#""version":1"#,
            r#""version":2,"rate":1,"floor":"#,
            "",
            Fault::Wrong(Name::Floor, 0),
        ),
        (r#""id":2"#, r#""id":"#, "", Fault::Wrong(Name::Id, 2)),
        (
            r#""volume":1"#,
            r#""volume":"#,
            "",
            Fault::Wrong(Name::Volume, 1),
        ),
        (
            r#""value":10"#,
            r#""value":"#,
            "",
            Fault::Wrong(Name::Value, 3),
        ),
        (
            r#""budget":1000"#,
            r#""budget":"#,
            "",
            Fault::Wrong(Name::Budget, 1),
        ),
        (r#"}]}"#, r#","seed":"#, "}]}", Fault::Wrong(Name::Seed, 1)),
    ];
    assert_eq!(rt; first_place(rt.alloc(), NOT_NUMBERS, ROWS)?, None);
    Ok(())
}

// A member of the wrong kind is rejected. Only `value` may be null, and `kind` must be a string.
#[test]
fn members_of_the_wrong_kind(rt: HostRuntime) -> Result<(), Fail> {
    const ROWS: &[(&str, &str, Option<Fault>)] = &[
        (
            r#""version":1"#,
            r#""version":null"#,
            Some(Fault::Wrong(Name::Version, 0)),
        ),
        (
            r#""top":15"#,
            r#""top":null"#,
            Some(Fault::Wrong(Name::Top, 0)),
        ),
        (
            r#""opening":100"#,
            r#""opening":null"#,
            Some(Fault::Wrong(Name::Opening, 0)),
        ),
        (
            r#""version":1"#,
            r#""version":2,"rate":null,"floor":0"#,
            Some(Fault::Wrong(Name::Rate, 0)),
        ),
        (
            r#""version":1"#,
            r#""version":2,"rate":1,"floor":null"#,
            Some(Fault::Wrong(Name::Floor, 0)),
        ),
        ("[40,40]", "null", Some(Fault::Wrong(Name::Decrements, 0))),
        ("[40,40]", "[null]", Some(Fault::Wrong(Name::Decrements, 1))),
        (r#""id":1"#, r#""id":null"#, Some(Fault::Wrong(Name::Id, 1))),
        (
            r#""volume":1"#,
            r#""volume":null"#,
            Some(Fault::Wrong(Name::Volume, 1)),
        ),
        (r#""cdcl""#, "null", Some(Fault::Wrong(Name::Kind, 1))),
        (r#""cdcl""#, "true", Some(Fault::Wrong(Name::Kind, 1))),
        (r#""cdcl""#, "1", Some(Fault::Wrong(Name::Kind, 1))),
        (
            r#""cdcl""#,
            r#"["cdcl"]"#,
            Some(Fault::Wrong(Name::Kind, 1)),
        ),
        (
            r#""cdcl""#,
            r#"{"cdcl":1}"#,
            Some(Fault::Wrong(Name::Kind, 1)),
        ),
        (
            r#""budget":1000"#,
            r#""budget":null"#,
            Some(Fault::Wrong(Name::Budget, 1)),
        ),
        (
            r#""budget":1000"#,
            r#""budget":1000,"seed":null"#,
            Some(Fault::Wrong(Name::Seed, 1)),
        ),
    ];
    assert_eq!(rt; first_otherwise(rt.alloc(), ROWS)?, None);
    Ok(())
}

#[test]
fn lists_of_the_wrong_kind(rt: HostRuntime) -> Result<(), Fail> {
    const VALUES: &[&str] = &["null", "true", "1", "1.5", r#""x""#, "{}"];
    const ROWS: &[(&str, &str, &str, Fault)] = &[
        (DECREMENTS, "", "", Fault::Wrong(Name::Decrements, 0)),
        (STATIONS, "", "", Fault::Wrong(Name::Stations, 0)),
        (WORKERS, "", "", Fault::Wrong(Name::Workers, 0)),
    ];
    assert_eq!(rt; first_place(rt.alloc(), VALUES, ROWS)?, None);
    Ok(())
}

// A station or a worker that is no object is rejected under the name of its list.
#[test]
fn items_of_the_wrong_kind(rt: HostRuntime) -> Result<(), Fail> {
    const VALUES: &[&str] = &["null", "true", "1", r#""x""#, "[]"];
    const ROWS: &[(&str, &str, &str, Fault)] = &[
        (
            STATIONS,
            r#"[{"id":1,"volume":1},"#,
            "]",
            Fault::Wrong(Name::Stations, 2),
        ),
        (
            WORKERS,
            r#"[{"kind":"cdcl","budget":1},"#,
            "]",
            Fault::Wrong(Name::Workers, 2),
        ),
    ];
    assert_eq!(rt; first_place(rt.alloc(), VALUES, ROWS)?, None);
    Ok(())
}

#[test]
fn texts_that_are_no_object(rt: HostRuntime) -> Result<(), Fail> {
    const VALUES: &[&str] = &["null", "true", "1", "1.5", r#""x""#, "[]"];
    const BARE: &[(&str, &str, &str, Fault)] = &[(TEXT, "", "", Fault::Wrong(Name::Scenario, 0))];
    const LISTED: &[(&str, &str, &str, Fault)] = &[(
        TEXT,
        "[",
        "]",
        Fault::Wrong(Name::Scenario, 0),
    )];
    assert_eq!(rt; first_place(rt.alloc(), VALUES, BARE)?, None);
    assert_eq!(rt; first_place(rt.alloc(), &[TEXT], LISTED)?, None);
    Ok(())
}
