//! Scenarios with an opening price of 100 cents and two decrements of 40 cents.

use crate::samples::workers::learner;
use pack_defs::fall::Fall;
use pack_defs::items::Items;
use pack_defs::scenario::Scenario;
use pack_defs::station::Station;
use pack_defs::worker::Worker;
use std::alloc::{AllocError as NoMemory, Global};

/// Returns a station with this volume and this value in cents. A station without a value starts on air.
pub fn bid(id: u32, volume: u32, value: Option<u64>) -> Station {
    Station { id, volume, value }
}

/// Returns the auction of these stations with these workers.
pub fn auction_of(
    alloc: Global,
    stations: Vec<Station>,
    workers: Vec<Worker>,
) -> Result<Scenario, NoMemory> {
    Ok(Scenario {
        version: 1,
        top: 15,
        opening: 100,
        fall: Fall::Listed(Items::from_vec(vec![in alloc; 40, 40]?)),
        stations: Items::from_vec(stations),
        workers: Items::from_vec(workers),
        owners: None,
    })
}

/// Returns the auction of stations 1 to 3 with these workers. The values are 50, `value` and 10 cents; station 3 has this volume.
pub fn three_bids(
    alloc: Global,
    value: u64,
    volume: u32,
    workers: Vec<Worker>,
) -> Result<Scenario, NoMemory> {
    let stations = vec![in alloc;
        bid(1, 1, Some(50)),
        bid(2, 1, Some(value)),
        bid(3, volume, Some(10)),
    ]?;
    auction_of(alloc, stations, workers)
}

/// Returns the auction of `three_bids` with one `cdcl` worker of this budget.
pub fn three_bids_by_one(
    alloc: Global,
    value: u64,
    volume: u32,
    budget: u32,
) -> Result<Scenario, NoMemory> {
    let workers = vec![in alloc; learner(budget)]?;
    three_bids(alloc, value, volume, workers)
}

/// Returns the auction of station 1, whose value is 5 cents, with one `cdcl` worker.
pub fn lone_bid(alloc: Global) -> Result<Scenario, NoMemory> {
    let stations = vec![in alloc; bid(1, 1, Some(5))]?;
    let workers = vec![in alloc; learner(1000)]?;
    auction_of(alloc, stations, workers)
}
