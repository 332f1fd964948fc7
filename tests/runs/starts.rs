//! Start sets that do not fit, and start sets that no worker decides.

use crate::scenes::scene::{RUN, Scene, first_untrue};
use crate::scenes::stations::{THREE_PLAIN, TWO_PLAIN};
use std::test::Fail;

const ALL: Scene<'static> = Scene {
    stations: THREE_PLAIN,
    ..RUN
};

const APART: Scene<'static> = Scene {
    rows: "CO,14,14,1,2\nCO,15,15,1,2\nADJ+1,14,15,1,2\nADJ-1,15,14,1,2\n",
    stations: TWO_PLAIN,
    ..RUN
};

const BARE: Scene<'static> = Scene {
    domains: "DOMAIN,1,14\nDOMAIN,2,16\nDOMAIN,3\n",
    rows: "",
    ..ALL
};

// Two stations with the same single channel, tested by a `cdcl` worker and a `walk` worker.
const LEARNS_FIRST: Scene<'static> = Scene {
    domains: "DOMAIN,1,14\nDOMAIN,2,14\n",
    rows: "CO,14,14,1,2\n",
    stations: TWO_PLAIN,
    workers: "{\"kind\":\"cdcl\",\"budget\":1000},{\"kind\":\"walk\",\"budget\":10}",
    ..RUN
};

const WALKS_FIRST: Scene<'static> = Scene {
    workers: "{\"kind\":\"walk\",\"budget\":10},{\"kind\":\"cdcl\",\"budget\":1000}",
    ..LEARNS_FIRST
};

// Either of two `cdcl` workers may decide first.
const TWO_LEARN: Scene<'static> = Scene {
    workers: "{\"kind\":\"cdcl\",\"budget\":1000},{\"kind\":\"cdcl\",\"budget\":1000}",
    ..ALL
};

const SPENDS: Scene<'static> = Scene {
    workers: "{\"kind\":\"cdcl\",\"budget\":1}",
    ..ALL
};

const BOTH_SPEND: Scene<'static> = Scene {
    workers: "{\"kind\":\"cdcl\",\"budget\":1},{\"kind\":\"cdcl\",\"budget\":1}",
    ..ALL
};

const REFUTED: &str =
    "status 6; said: the start set does not fit\n; nothing stored; ending: start refuted; tests: none; map: none; total: 0";

const REFUTED_BY_0: &str =
    "status 6; said: the start set does not fit\n; nothing stored; ending: start refuted; start: refuted by 0; tests: none; map: none; total: 0";

const STARTS: &[(Scene<'static>, &str)] = &[
    (ALL, REFUTED_BY_0),
    (APART, REFUTED_BY_0),
    (
        BARE,
        "status 6; said: the start set does not fit\n; nothing stored; ending: start refuted; start: no channel for 2; tests: none; map: none; total: 0",
    ),
    (LEARNS_FIRST, REFUTED),
    (WALKS_FIRST, REFUTED),
    (TWO_LEARN, REFUTED),
    (
        SPENDS,
        "status 7; said: the start set is undecided\n; nothing stored; ending: start open; start: open after 1 line; tests: none",
    ),
    (
        BOTH_SPEND,
        "status 7; said: the start set is undecided\n; nothing stored; ending: start open; start: open after 1 line + 1 line; tests: none",
    ),
];

#[test]
fn start_sets_are_refuted_or_undecided(rt: HostRuntime) -> Result<(), Fail> {
    assert_eq!(rt; first_untrue(&rt, rt.alloc(), STARTS)?, None);
    Ok(())
}
