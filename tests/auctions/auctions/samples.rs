//! Scenarios of one and two rounds, and their workers.

use crate::samples::scenarios::{auction_of, bid};
use crate::samples::workers::{learner, walker};
use pack_defs::fall::Fall;
use pack_defs::items::Items;
use pack_defs::scenario::Scenario;
use pack_defs::station::Station;
use pack_defs::worker::Worker;
use std::alloc::{AllocError as NoMemory, Global};

// The workers of an auction. A short one has a budget of 1, any other 1000.
#[derive(Clone, Copy)]
pub(crate) enum Crew {
    Learner,
    ShortLearner,
    ShortLearners,
    ShortAndLong,
    ShortLearnerAndWalker,
}

fn workers_of(alloc: Global, crew: Crew) -> Result<Vec<Worker>, NoMemory> {
    match crew {
        Crew::Learner => return Ok(vec![in alloc; learner(1000)]?),
        Crew::ShortLearner => return Ok(vec![in alloc; learner(1)]?),
        Crew::ShortLearners => return Ok(vec![in alloc; learner(1), learner(1)]?),
        Crew::ShortAndLong => return Ok(vec![in alloc; learner(1), learner(1000)]?),
        Crew::ShortLearnerAndWalker => return Ok(vec![in alloc; learner(1), walker(1)]?),
    }
}

// The values of stations 1 to 3 in cents. A station without a value starts on air.
pub(crate) type Values = (Option<u8>, Option<u8>, Option<u8>);

fn cents(value: Option<u8>) -> Option<u64> {
    let Some(cents) = value else {
        return None;
    };
    Some(u64::from(cents))
}

// Returns a scenario of stations 1 to 3 with these values. The price falls twice from 100 cents.
pub(crate) fn two_rounds(
    alloc: Global,
    values: Values,
    workers: Crew,
) -> Result<Scenario, NoMemory> {
    let workers = workers_of(alloc, workers)?;
    let stations = vec![in alloc;
        bid(1, 1, cents(values.0)),
        bid(2, 1, cents(values.1)),
        bid(3, 1, cents(values.2)),
    ]?;
    auction_of(alloc, stations, workers)
}

// Returns a scenario of one round at 100 cents with one worker.
pub(crate) fn one_round(alloc: Global, stations: Vec<Station>) -> Result<Scenario, NoMemory> {
    Ok(Scenario {
        version: 1,
        top: 15,
        opening: 100,
        fall: Fall::Listed(Items::from_vec(Vec::new(alloc))),
        stations: Items::from_vec(stations),
        workers: Items::from_vec(vec![in alloc; learner(1000)]?),
        owners: None,
    })
}
