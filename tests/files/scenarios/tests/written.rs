//! A written scenario has the expected text, and is read back unchanged.

use pack_defs::fall::Fall;
use pack_defs::items::Items;
use pack_defs::scenario::Scenario;
use pack_defs::station::Station;
use pack_defs::worker::{Kind, Worker};
use scenario_json::scenario::read_scenario;
use scenario_json::write::write_scenario;
use std::alloc::{AllocError as NoMemory, Global};
use std::test::Fail;

// How the price falls: by these decrements, or by a rate and a floor.
#[derive(Clone, Copy)]
enum Told {
    By(&'static [u32]),
    At(u32, u32),
}

// The stations by id, volume and value; the workers by kind, budget and seed.
type Stations = &'static [(u32, u32, Option<u64>)];

type Workers = &'static [(Kind, u32, u64)];

// A scenario's version, top channel, opening price, price fall, stations and workers, and its text.
type Row = (u32, u8, u32, Told, Stations, Workers, &'static str);

fn fall_of(alloc: Global, told: Told) -> Result<Fall, NoMemory> {
    match told {
        Told::By(decrements) => Ok(Fall::Listed(Items::from_vec(Vec::from_slice(
            alloc, decrements,
        )?))),
        Told::At(rate, floor) => Ok(Fall::Rated { rate, floor }),
    }
}

fn stations_of(alloc: Global, rows: Stations) -> Result<Items<Station>, NoMemory> {
    let mut stations = Vec::with_capacity(alloc, rows.len())?;
    for (id, volume, value) in rows {
        stations.push(Station {
            id: *id,
            volume: *volume,
            value: *value,
        })?;
    }
    Ok(Items::from_vec(stations))
}

fn workers_of(alloc: Global, rows: Workers) -> Result<Items<Worker>, NoMemory> {
    let mut workers = Vec::with_capacity(alloc, rows.len())?;
    for (kind, budget, seed) in rows {
        workers.push(Worker {
            kind: *kind,
            budget: *budget,
            seed: *seed,
        })?;
    }
    Ok(Items::from_vec(workers))
}

fn scenario_of(alloc: Global, row: &Row) -> Result<Scenario, NoMemory> {
    let (version, top, opening, told, stations, workers, _) = *row;
    Ok(Scenario {
        version,
        top,
        opening,
        fall: fall_of(alloc, told)?,
        stations: stations_of(alloc, stations)?,
        workers: workers_of(alloc, workers)?,
        owners: None,
    })
}

fn falls_so(fall: &Fall, told: Told) -> bool {
    match (fall, told) {
        (Fall::Listed(decrements), Told::By(listed)) => decrements.as_slice() == listed,
        (Fall::Rated { rate, floor }, Told::At(by, least)) => *rate == by && *floor == least,
        _ => false,
    }
}

fn are_stations(stations: &[Station], rows: Stations) -> bool {
    stations.len() == rows.len()
        && stations
            .iter()
            .zip(rows)
            .all(|(x, row)| (x.id, x.volume, x.value) == *row)
}

fn are_workers(workers: &[Worker], rows: Workers) -> bool {
    workers.len() == rows.len()
        && workers
            .iter()
            .zip(rows)
            .all(|(x, row)| (x.kind, x.budget, x.seed) == *row)
}

// Checks whether the bytes are read as the row's scenario.
fn reads_so(alloc: Global, bytes: &[u8], row: &Row) -> bool {
    let (version, top, opening, told, stations, workers, _) = *row;
    let Ok(read) = read_scenario(alloc, bytes) else {
        return false;
    };
    read.version == version
        && read.top == top
        && read.opening == opening
        && falls_so(&read.fall, told)
        && are_stations(read.stations.as_slice(), stations)
        && are_workers(read.workers.as_slice(), workers)
        && read.owners.is_none()
}

// Checks whether the row's scenario is written as its text, and read back unchanged.
fn is_written(alloc: Global, row: &Row) -> Result<bool, NoMemory> {
    let scenario = scenario_of(alloc, row)?;
    let bytes = write_scenario(alloc, &scenario)?;
    Ok(bytes.as_slice() == row.6.as_bytes() && reads_so(alloc, bytes.as_slice(), row))
}

// Returns the text of the first row that is written or read otherwise.
fn first_otherwise(alloc: Global, rows: &[Row]) -> Result<Option<&'static str>, NoMemory> {
    for row in rows {
        if !is_written(alloc, row)? {
            return Ok(Some(row.6));
        }
    }
    Ok(None)
}

#[test]
fn writes_scenarios_of_both_versions(rt: HostRuntime) -> Result<(), Fail> {
    const ROWS: &[Row] = &[
        (
            1,
            15,
            100,
            Told::By(&[40, 41]),
            &[(1, 2, Some(50)), (7, 1, None), (30, 4, Some(0))],
            &[(Kind::Cdcl, 1_000, 0), (Kind::Walk, 7, 5)],
            r#"{"decrements":[40,41],"opening":100,"stations":[{"id":1,"value":50,"volume":2},{"id":7,"value":null,"volume":1},{"id":30,"value":0,"volume":4}],"top":15,"version":1,"workers":[{"budget":1000,"kind":"cdcl","seed":0},{"budget":7,"kind":"walk","seed":5}]}"#,
        ),
        (
            1,
            14,
            1,
            Told::By(&[]),
            &[],
            &[(Kind::Cdcl, 1, 1)],
            r#"{"decrements":[],"opening":1,"stations":[],"top":14,"version":1,"workers":[{"budget":1,"kind":"cdcl","seed":1}]}"#,
        ),
        (
            1,
            51,
            1_000_000,
            Told::By(&[1_000_000]),
            &[
                (0, 1_000_000, Some(1_000_000_000_000_000)),
                (4_294_967_295, 1, None),
            ],
            &[
                (Kind::Walk, 1_000_000, 18_446_744_073_709_551_615),
                (Kind::Cdcl, 100_000, 9),
            ],
            r#"{"decrements":[1000000],"opening":1000000,"stations":[{"id":0,"value":1000000000000000,"volume":1000000},{"id":4294967295,"value":null,"volume":1}],"top":51,"version":1,"workers":[{"budget":1000000,"kind":"walk","seed":18446744073709551615},{"budget":100000,"kind":"cdcl","seed":9}]}"#,
        ),
        (
            2,
            15,
            100,
            Told::At(1_000, 999),
            &[(3, 1, Some(1))],
            &[(Kind::Cdcl, 5, 0)],
            r#"{"floor":999,"opening":100,"rate":1000,"stations":[{"id":3,"value":1,"volume":1}],"top":15,"version":2,"workers":[{"budget":5,"kind":"cdcl","seed":0}]}"#,
        ),
        (
            2,
            14,
            7,
            Told::At(1, 0),
            &[],
            &[(Kind::Cdcl, 5, 0)],
            r#"{"floor":0,"opening":7,"rate":1,"stations":[],"top":14,"version":2,"workers":[{"budget":5,"kind":"cdcl","seed":0}]}"#,
        ),
    ];
    assert_eq!(rt; first_otherwise(rt.alloc(), ROWS)?, None);
    Ok(())
}
