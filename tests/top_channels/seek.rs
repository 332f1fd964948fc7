//! Results of `seek`.

use crate::scenes::change::Change;
use crate::scenes::scene::{RUN, Scene, first_untrue, first_untrue_words};
use crate::scenes::stations::{ONE_LINE, SEEK, THREE_PLAIN, TWO_PLAIN};
use std::test::Fail;

const TO_16: &str = "\"top\":16,\"opening\":100,\"decrements\":[40,40]";

// Two stations without values on three channels. They may not share a channel, nor use channels 14 and 15 together.
const APART: Scene<'static> = Scene {
    command: SEEK,
    domains: "DOMAIN,1,14,15,16\nDOMAIN,2,14,15,16\n",
    rows: "CO,14,14,1,2\nCO,15,15,1,2\nCO,16,16,1,2\nADJ+1,14,15,1,2\nADJ-1,15,14,1,2\n",
    clock: TO_16,
    stations: TWO_PLAIN,
    ..RUN
};

// Three stations without values on three channels, no two of which may share one.
const CROWD: Scene<'static> = Scene {
    command: SEEK,
    domains: "DOMAIN,1,14,15,16\nDOMAIN,2,14,15,16\nDOMAIN,3,14,15,16\n",
    rows: "CO,14,14,1,2,3\nCO,14,14,2,3\nCO,15,15,1,2,3\nCO,15,15,2,3\nCO,16,16,1,2,3\nCO,16,16,2,3\n",
    clock: TO_16,
    stations: THREE_PLAIN,
    ..RUN
};

const LEAST_TOPS: &[(Scene<'static>, &str)] = &[
    // The stations fit only up to the scenario's own top channel.
    (
        APART,
        "status 0; said: top 16\n; channels of the map; ending: done; start: fits; tests: none; on air: 1, 2; below: start refuted; no out.csv; inputs kept",
    ),
    (
        Scene {
            rows: "CO,14,14,1,2\nCO,15,15,1,2\nCO,16,16,1,2\n",
            ..APART
        },
        "status 0; said: top 15\n; channels of the map; on air: 1, 2; below: start refuted",
    ),
    // No two stations interfere.
    (
        Scene { rows: "", ..APART },
        "status 0; said: top 14\n; chan.csv: facility,channel\n1,14\n2,14\n; no record below",
    ),
    // The stations fit up to no top channel.
    (
        Scene {
            clock: "\"top\":15,\"opening\":100,\"decrements\":[40,40]",
            ..APART
        },
        "status 6; said: the start set does not fit\n; nothing stored; ending: start refuted; no record below; inputs kept",
    ),
    // No station starts on air: there is none, or all take part.
    (
        Scene {
            stations: "",
            ..APART
        },
        "status 0; said: top 14\n; chan.csv: facility,channel\n; start: empty; no record below",
    ),
    (
        Scene {
            command: SEEK,
            ..RUN
        },
        "status 0; said: top 14\n; chan.csv: facility,channel\n; start: empty; no record below",
    ),
    // One of three stations takes part, with a value equal to the opening offer.
    (
        Scene {
            stations: "{\"id\":1,\"volume\":1},{\"id\":2,\"volume\":1,\"value\":101},{\"id\":3,\"volume\":1,\"value\":100}",
            ..CROWD
        },
        "status 0; said: top 15\n; on air: 1, 2; below: start refuted",
    ),
    (
        CROWD,
        "status 0; said: top 16\n; on air: 1, 2, 3; below: start refuted",
    ),
    // The test with one channel fewer is undecided.
    (
        Scene {
            workers: ONE_LINE,
            ..CROWD
        },
        "status 1; said: top 16\nundecided 15\n; channels of the map; on air: 1, 2, 3; below: start open after 1 line",
    ),
    // The test of the scenario's own top channel is undecided.
    (
        Scene {
            command: SEEK,
            stations: THREE_PLAIN,
            workers: ONE_LINE,
            ..RUN
        },
        "status 7; said: the start set is undecided\n; nothing stored; ending: start open; no record below",
    ),
];

#[test]
fn least_tops_are_found(rt: HostRuntime) -> Result<(), Fail> {
    assert_eq!(rt; first_untrue(&rt, rt.alloc(), LEAST_TOPS)?, None);
    Ok(())
}

const STOPS: &[(Scene<'static>, &str)] = &[
    (
        Scene {
            change: Change::Missing("s.json"),
            ..APART
        },
        "status 3; said: cannot read s.json\n; nothing stored; no record; no record below",
    ),
    (
        Scene {
            domains: "DOMAIN,1,14\n",
            ..APART
        },
        "status 5; said: d.csv: no domain row for station 2\n; nothing stored; no record",
    ),
    // The store fails, and then the print.
    (
        Scene {
            change: Change::Call(8),
            ..APART
        },
        "status 4; said: cannot write chan.csv\n; faults: 1; on air: 1, 2; below: start refuted",
    ),
    (
        Scene {
            change: Change::Write(1),
            ..APART
        },
        "status 4; nothing said; channels of the map; on air: 1, 2; below: start refuted",
    ),
];

const GIVEN_TWICE: &[(&str, &str)] = &[
    (
        "repack seek d.csv r.csv s.json d.csv",
        "status 5; said: d.csv: given twice\n; nothing stored; no record; inputs kept",
    ),
    (
        "repack seek d.csv r.csv s.json s.json",
        "status 5; said: s.json: given twice\n; nothing stored; no record; inputs kept",
    ),
];

#[test]
fn searches_that_stop(rt: HostRuntime) -> Result<(), Fail> {
    assert_eq!(rt; first_untrue(&rt, rt.alloc(), STOPS)?, None);
    assert_eq!(rt; first_untrue_words(&rt, rt.alloc(), GIVEN_TWICE)?, None);
    Ok(())
}
