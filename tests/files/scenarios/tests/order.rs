//! The first of two errors is reported.

use crate::files::scenarios::tests::{Fault, WORKERS, first_otherwise};
use scenario_json::name::Name;
use std::test::Fail;

const WORKER: &str = r#"{"kind":"cdcl","budget":1000}"#;

#[test]
fn members_of_the_whole_in_order(rt: HostRuntime) -> Result<(), Fail> {
    const ROWS: &[(&str, &str, Option<Fault>)] = &[
        (
            r#""version":1,"top":15"#,
            r#""top":"x""#,
            Some(Fault::Missing(Name::Version, 0)),
        ),
        (
            r#""version":1,"top":15"#,
            r#""top":52,"version":3"#,
            Some(Fault::Outside(Name::Version, 0)),
        ),
        (
            r#""top":15,"opening":100"#,
            r#""top":null"#,
            Some(Fault::Wrong(Name::Top, 0)),
        ),
        (
            r#"100,"decrements":[40,40]"#,
            r#"0,"decrements":[0]"#,
            Some(Fault::Outside(Name::Opening, 0)),
        ),
        (
            r#""version":1,"top":15"#,
            r#""version":2,"rate":0,"top":52"#,
            Some(Fault::Outside(Name::Top, 0)),
        ),
        (
            r#""version":1,"top":15,"opening":100"#,
            r#""version":2,"rate":0,"top":15,"opening":0"#,
            Some(Fault::Outside(Name::Opening, 0)),
        ),
        (
            r#""version":1"#,
            r#""version":2,"floor":1001,"rate":0"#,
            Some(Fault::Outside(Name::Rate, 0)),
        ),
        (
            r#"[40,40],"stations":["#,
            r#"[40,40],"version":2,"rate":1,"floor":1001,"stations":[null,"#,
            Some(Fault::Outside(Name::Floor, 0)),
        ),
        (
            r#"[40,40],"stations":["#,
            r#"[40,"x"],"version":2,"rate":1,"floor":0,"stations":[null,"#,
            Some(Fault::Wrong(Name::Stations, 1)),
        ),
        (
            r#"[40,40],"stations":["#,
            r#"[40,"x"],"stations":[null,"#,
            Some(Fault::Wrong(Name::Decrements, 2)),
        ),
        ("[40,40]", "[60,40]", None),
        ("[40,40]", "[60,41]", Some(Fault::Sum)),
        ("[40,40]", "[100,1]", Some(Fault::Sum)),
        (
            "[40,40]",
            "[60,41,0]",
            Some(Fault::Outside(Name::Decrements, 3)),
        ),
        (
            "[40,40]",
            "[1000001,null]",
            Some(Fault::Outside(Name::Decrements, 1)),
        ),
        (
            r#"[40,40],"stations":["#,
            r#"[60,41],"stations":[null,"#,
            Some(Fault::Sum),
        ),
        (
            r#""value":10}],"workers":["#,
            r#""value":true}],"workers":[null,"#,
            Some(Fault::Wrong(Name::Value, 3)),
        ),
    ];
    assert_eq!(rt; first_otherwise(rt.alloc(), ROWS)?, None);
    Ok(())
}

#[test]
fn members_of_a_station_in_order(rt: HostRuntime) -> Result<(), Fail> {
    const ROWS: &[(&str, &str, Option<Fault>)] = &[
        (r#""id":2"#, r#""id":1"#, Some(Fault::Repeated(1))),
        (
            r#""id":2,"volume":1"#,
            r#""id":1,"volume":0"#,
            Some(Fault::Repeated(1)),
        ),
        (
            r#""id":2,"volume":1"#,
            r#""id":4294967296"#,
            Some(Fault::Outside(Name::Id, 2)),
        ),
        (
            r#""id":2,"volume":1,"value":70"#,
            r#""value":-1"#,
            Some(Fault::Missing(Name::Id, 2)),
        ),
        (
            r#""volume":1,"value":70"#,
            r#""volume":0,"value":-1"#,
            Some(Fault::Outside(Name::Volume, 2)),
        ),
        (
            r#""value":50},{"id":2"#,
            r#""value":-1},{"id":1"#,
            Some(Fault::Wrong(Name::Value, 1)),
        ),
        (
            r#""value":70},{"id":3"#,
            r#""value":1000000000000001},{"id":2"#,
            Some(Fault::Outside(Name::Value, 2)),
        ),
    ];
    assert_eq!(rt; first_otherwise(rt.alloc(), ROWS)?, None);
    Ok(())
}

#[test]
fn members_of_a_worker_in_order(rt: HostRuntime) -> Result<(), Fail> {
    const ROWS: &[(&str, &str, Option<Fault>)] = &[
        (
            WORKER,
            r#"{"kind":1,"budget":0}"#,
            Some(Fault::Wrong(Name::Kind, 1)),
        ),
        (
            WORKER,
            r#"{"kind":"walker","budget":1}"#,
            Some(Fault::Outside(Name::Kind, 1)),
        ),
        (
            WORKER,
            r#"{"kind":"walker","budget":0}"#,
            Some(Fault::Outside(Name::Kind, 1)),
        ),
        (
            WORKER,
            r#"{"kind":"walker","budget":"x"}"#,
            Some(Fault::Outside(Name::Kind, 1)),
        ),
        (
            WORKER,
            r#"{"budget":0}"#,
            Some(Fault::Missing(Name::Kind, 1)),
        ),
        (
            WORKER,
            r#"{"kind":"cdcl","seed":-1}"#,
            Some(Fault::Missing(Name::Budget, 1)),
        ),
        (
            WORKER,
            r#"{"kind":"cdcl","budget":0,"seed":-1}"#,
            Some(Fault::Outside(Name::Budget, 1)),
        ),
        (
            WORKER,
            r#"{"kind":"cdcl","budget":1,"seed":-1},null"#,
            Some(Fault::Wrong(Name::Seed, 1)),
        ),
        (
            WORKER,
            r#"{"kind":"cdcl","budget":1},{"kind":"walker"}"#,
            Some(Fault::Outside(Name::Kind, 2)),
        ),
        (
            WORKER,
            r#"{"kind":"walk","seed":-1}"#,
            Some(Fault::Missing(Name::Budget, 1)),
        ),
        (
            WORKER,
            r#"{"kind":"walk","budget":0,"seed":-1}"#,
            Some(Fault::Outside(Name::Budget, 1)),
        ),
        (
            WORKER,
            r#"{"kind":"walk","budget":1,"seed":-1}"#,
            Some(Fault::Wrong(Name::Seed, 1)),
        ),
    ];
    assert_eq!(rt; first_otherwise(rt.alloc(), ROWS)?, None);
    Ok(())
}

// A scenario without a `cdcl` worker is rejected after its last worker is read.
#[test]
fn workers_without_a_cdcl_worker(rt: HostRuntime) -> Result<(), Fail> {
    const ROWS: &[(&str, &str, Option<Fault>)] = &[
        (
            WORKERS,
            r#"[{"kind":"walk","budget":1}]"#,
            Some(Fault::NoProver),
        ),
        (
            WORKERS,
            r#"[{"kind":"walk","budget":1000000},{"kind":"walk","budget":7,"seed":3}]"#,
            Some(Fault::NoProver),
        ),
        (
            WORKERS,
            r#"[{"kind":"walk","budget":1},{"kind":"walk"}]"#,
            Some(Fault::Missing(Name::Budget, 2)),
        ),
        (
            WORKERS,
            r#"[{"kind":"walk","budget":1},null]"#,
            Some(Fault::Wrong(Name::Workers, 2)),
        ),
        (
            WORKERS,
            r#"[{"kind":"walk","budget":1},{"kind":"cdcl","budget":1}]"#,
            None,
        ),
    ];
    assert_eq!(rt; first_otherwise(rt.alloc(), ROWS)?, None);
    Ok(())
}
