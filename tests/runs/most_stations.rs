//! A run of 8,192 stations, the maximum for a scenario.

use crate::scenes::scene::{RUN, Scene, outputs_match};
use crate::scenes::stations::{domain_rows, free_stations};
use std::alloc::{AllocError as NoMemory, Global};
use std::sync::Wait;
use std::test::Fail;
use std::thread::Threads;

const MOST: u32 = 8_192;

// One round at a price of 100.
const ONE_ROUND: &str = "\"top\":15,\"opening\":100,\"decrements\":[]";

const ALL_ON_AIR: &str =
    "status 0; said: stations 8192\non-air 8192\nfrozen 0\nundecided 0\ntotal 0\n; channels of the map; tr.txt begins: transcript 2, start empty; tr.txt ends: end 8192";

// Checks whether a run of `count` stations has these facts. Each station has value 0 and only channel 14; no row names any.
fn outputs_match_for<W: Threads + Wait + Sync>(
    rt: &W,
    alloc: Global,
    count: u32,
    facts: &str,
) -> Result<bool, NoMemory> {
    let domains = domain_rows(alloc, count)?;
    let stations = free_stations(alloc, count)?;
    let scene = Scene {
        domains: &domains,
        rows: "",
        clock: ONE_ROUND,
        stations: &stations,
        ..RUN
    };
    outputs_match(rt, alloc, &scene, facts)
}

// A value of 0 is not above the opening offer of 100, and no station starts on air. Each is tested in round 1. Without a row no two
// stations interfere, and each test fits although all stations share channel 14. Without a decrement round 1 is the last one, where
// each station that fits goes on air, whatever its value. None is frozen, and nothing is paid.
#[test]
fn all_of_the_most_stations_go_on_air(rt: HostRuntime) -> Result<(), Fail> {
    assert!(rt; outputs_match_for(&rt, rt.alloc(), MOST, ALL_ON_AIR)?);
    Ok(())
}
