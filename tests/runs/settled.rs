//! Results of `run` when every test is decided.

use crate::scenes::change::Change;
use crate::scenes::scene::{RUN, Scene, first_untrue, first_untrue_change};
use crate::scenes::stations::TWO_PLAIN;
use std::test::Fail;

// One station, and no decrement.
const ONE: Scene<'static> = Scene {
    domains: "DOMAIN,1,40\n",
    rows: "",
    clock: "\"top\":36,\"opening\":100,\"decrements\":[]",
    stations: "{\"id\":1,\"volume\":1,\"value\":5}",
    ..RUN
};

// The one station with the greatest opening price and volume.
const GREATEST: Scene<'static> = Scene {
    clock: "\"top\":36,\"opening\":1000000,\"decrements\":[]",
    stations: "{\"id\":1,\"volume\":1000000,\"value\":10}",
    ..ONE
};

const THREE_STATIONS: &[(Change<'static>, &str)] = &[
    // `run` stores the three outputs. The solver chooses the channels and the proof.
    (
        Change::Part("", ""),
        "status 0; said: stations 3\non-air 2\nfrozen 1\nundecided 0\ntotal 60\n; out.csv: facility,outcome,round,price\n1,exit,2,0\n2,exit,1,0\n3,frozen,2,60\n; channels of the map; tr.txt begins: transcript 2, start empty; tr.txt ends: end 5; inputs kept",
    ),
    // The record has each test.
    (
        Change::Part("", ""),
        "ending: done; tests: 1.1 fits, 1.2 fits, 1.3 fits, 2.1 fits, 2.3 refuted by 0; on air: 1, 2; total: 60",
    ),
    // A station stays in the clock when its offer equals its value.
    (
        Change::Part("\"value\":10", "\"value\":60"),
        "status 0; said: stations 3\non-air 2\nfrozen 1\nundecided 0\ntotal 60\n; out.csv: facility,outcome,round,price\n1,exit,2,0\n2,exit,1,0\n3,frozen,2,60\n",
    ),
    (
        Change::Part("\"value\":10", "\"value\":61"),
        "status 0; said: stations 3\non-air 2\nfrozen 1\nundecided 0\ntotal 60\n; out.csv: facility,outcome,round,price\n1,frozen,2,60\n2,exit,1,0\n3,exit,1,0\n",
    ),
    (
        Change::Part("[40,40]", "[]"),
        "status 0; said: stations 3\non-air 2\nfrozen 1\nundecided 0\ntotal 100\n; out.csv: facility,outcome,round,price\n1,exit,1,0\n2,exit,1,0\n3,frozen,1,100\n",
    ),
    // Station 3 has the greatest volume and is tested first in each round.
    (
        Change::Part("\"id\":3,\"volume\":1", "\"id\":3,\"volume\":2"),
        "status 0; said: stations 3\non-air 2\nfrozen 1\nundecided 0\ntotal 40\n; out.csv: facility,outcome,round,price\n1,exit,2,0\n2,exit,1,0\n3,frozen,3,40\n; tests: 1.3 fits, 1.1 fits, 1.2 fits, 2.3 fits, 2.1 fits, 3.3 refuted by 0",
    ),
    // A rate gives prices of 100, 60, 36, 16 and 0. Two tests have the same set as the same station's test one round before.
    (
        Change::Part(
            "1,\"top\":15,\"opening\":100,\"decrements\":[40,40],\"stations\":[{\"id\":1,\"volume\":1,\"value\":50}",
            "2,\"top\":15,\"opening\":100,\"rate\":400,\"floor\":200,\"stations\":[{\"id\":1,\"volume\":1,\"value\":30}",
        ),
        "status 0; said: stations 3\non-air 2\nfrozen 1\nundecided 0\ntotal 36\n; out.csv: facility,outcome,round,price\n1,exit,3,0\n2,exit,1,0\n3,frozen,3,36\n; tests: 1.1 fits, 1.2 fits, 1.3 fits, 2.1 fits, 2.3 as before, 3.1 as before, 3.3 refuted by 0; channels of the map; tr.txt ends: end 7",
    ),
    // A station that is on air from the start has round 0 in RESULT.
    (
        Change::Part("\"value\":70", "\"value\":101"),
        "status 0; said: stations 3\non-air 2\nfrozen 1\nundecided 0\ntotal 60\n; out.csv: facility,outcome,round,price\n1,exit,2,0\n2,start,0,0\n3,frozen,2,60\n; start: fits; tests: 1.1 fits, 1.3 fits, 2.1 as before, 2.3 refuted by 0; channels of the map; tr.txt begins: transcript 2, start fit 1; tr.txt ends: end 4",
    ),
];

#[test]
fn three_stations_are_settled(rt: HostRuntime) -> Result<(), Fail> {
    assert_eq!(rt;
        first_untrue_change(&rt, rt.alloc(), &RUN, THREE_STATIONS)?,
        None
    );
    Ok(())
}

const NOBODY: Scene<'static> = Scene {
    stations: "",
    ..RUN
};

const BELOW: Scene<'static> = Scene {
    domains: "DOMAIN,1,14\n",
    ..GREATEST
};

const START_FITS: Scene<'static> = Scene {
    rows: "CO,14,14,1,2\nCO,15,15,1,2\nADJ+1,14,15,1,2\n",
    stations: TWO_PLAIN,
    ..RUN
};

const OTHER_STATIONS: &[(Scene<'static>, &str)] = &[
    (
        NOBODY,
        "status 0; said: stations 0\non-air 0\nfrozen 0\nundecided 0\ntotal 0\n; out.csv: facility,outcome,round,price\n; chan.csv: facility,channel\n; tr.txt: transcript 2\nstart empty\nend 0\n",
    ),
    // All channels of the station are above the top channel.
    (
        ONE,
        "status 0; said: stations 1\non-air 0\nfrozen 1\nundecided 0\ntotal 100\n; out.csv: facility,outcome,round,price\n1,frozen,1,100\n; chan.csv: facility,channel\n; tr.txt: transcript 2\nstart empty\nnone 1 1\nend 1\n",
    ),
    (
        BELOW,
        "status 0; said: stations 1\non-air 1\nfrozen 0\nundecided 0\ntotal 0\n; out.csv: facility,outcome,round,price\n1,exit,1,0\n; chan.csv: facility,channel\n1,14\n; tr.txt: transcript 2\nstart empty\nfit 1 1 1\nat 1 14\nend 1\n",
    ),
    (
        GREATEST,
        "status 0; said: stations 1\non-air 0\nfrozen 1\nundecided 0\ntotal 1000000000000\n; out.csv: facility,outcome,round,price\n1,frozen,1,1000000000000\n",
    ),
    (
        START_FITS,
        "status 0; said: stations 2\non-air 2\nfrozen 0\nundecided 0\ntotal 0\n; out.csv: facility,outcome,round,price\n1,start,0,0\n2,start,0,0\n; chan.csv: facility,channel\n1,15\n2,14\n; tr.txt: transcript 2\nstart fit 2\nat 1 15\nat 2 14\nend 0\n; ending: done; map: 1 on 15, 2 on 14",
    ),
];

#[test]
fn other_stations_are_settled(rt: HostRuntime) -> Result<(), Fail> {
    assert_eq!(rt; first_untrue(&rt, rt.alloc(), OTHER_STATIONS)?, None);
    Ok(())
}
