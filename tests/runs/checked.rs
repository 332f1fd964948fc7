//! `check` counts stations, pairs, self-pairs and strangers.

use crate::scenes::change::Change;
use crate::scenes::scene::{RUN, Scene, first_untrue};
use crate::scenes::stations::{CHECK, THREE_PLAIN};
use std::test::Fail;

// `check` on the three stations.
const COUNT: Scene<'static> = Scene {
    command: CHECK,
    ..RUN
};

const ODDITIES: Scene<'static> = Scene {
    domains: " DOMAIN, 1 ,14,15,,\nDOMAIN,2,7,14,14,15\n\n",
    rows: "CO,14,14,1,999,2,\nCO,14,14,1,2\nCO,7,7,1,2\nCO,15,15,1,1\n",
    change: Change::Part(",{\"id\":3,\"volume\":1,\"value\":10}", ""),
    ..COUNT
};

// Only pairs of the book count: pairs above the top channel, or of a station outside the scenario, are left out.
const CUT: Scene<'static> = Scene {
    domains: "DOMAIN,1,14,16\nDOMAIN,2,14,16\nDOMAIN,3,14\nDOMAIN,9,14\n",
    rows: "CO,14,14,1,2,9\nCO,16,16,1,2\n",
    ..COUNT
};

// `check` does not test whether the start set fits.
const UNFIT: Scene<'static> = Scene {
    stations: THREE_PLAIN,
    ..COUNT
};

const COUNTS: &[(Scene<'static>, &str)] = &[
    (
        COUNT,
        "status 0; said: stations 3\npairs 6\nself-pairs 0\nstrangers 0\n; nothing stored; no record",
    ),
    (
        ODDITIES,
        "status 0; said: stations 2\npairs 1\nself-pairs 1\nstrangers 1\n; nothing stored; no record",
    ),
    (
        CUT,
        "status 0; said: stations 3\npairs 1\nself-pairs 0\nstrangers 0\n; nothing stored; no record",
    ),
    (
        UNFIT,
        "status 0; said: stations 3\npairs 6\nself-pairs 0\nstrangers 0\n; nothing stored; no record",
    ),
];

#[test]
fn files_are_counted(rt: HostRuntime) -> Result<(), Fail> {
    assert_eq!(rt; first_untrue(&rt, rt.alloc(), COUNTS)?, None);
    Ok(())
}
