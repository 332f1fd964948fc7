//! Records of the three stations' auction, and of one without stations.

use crate::samples::answers::{one_line, refutation};
use crate::samples::scenarios::{auction_of, three_bids_by_one};
use crate::samples::workers::learner;
use auction_core::record::{Ending, Record, Shown, Step};
use cert_types::answer::Receipt;
use pack_defs::channel_map::ChannelMap;
use pack_defs::items::Items;
use pack_defs::order::Order;
use pack_defs::scenario::Scenario;
use std::alloc::{AllocError as NoMemory, Global};

// Returns a refutation of the set of all three stations.
pub(crate) fn refuted(alloc: Global) -> Result<Shown, NoMemory> {
    let how = refutation(alloc)?;
    Ok(Shown::Refuted { worker: 0, how })
}

// Returns an undecided outcome. The only worker has derived the first line of the refutation, which spends its budget.
pub(crate) fn undecided(alloc: Global) -> Result<Shown, NoMemory> {
    let receipts = vec![in alloc; Receipt::Lines(one_line(alloc)?)]?;
    Ok(Shown::Undecided(Items::from_vec(receipts)))
}

// Returns a step that fits, with this channel for its station.
fn fitted(alloc: Global, round: u32, station: u32, channel: u8) -> Result<Step, NoMemory> {
    let map = ChannelMap::of(alloc, &[(station, channel)])?;
    Ok(Step {
        round,
        station,
        shown: Shown::Fits(map),
    })
}

// Returns the steps of the three stations' auction, with `last` as the outcome of the last one.
fn steps(alloc: Global, last: Shown) -> Result<Vec<Step>, NoMemory> {
    let last = Step {
        round: 2,
        station: 3,
        shown: last,
    };
    Ok(vec![in alloc;
        fitted(alloc, 1, 1, 14)?,
        fitted(alloc, 1, 2, 14)?,
        fitted(alloc, 1, 3, 15)?,
        fitted(alloc, 2, 1, 15)?,
        last,
    ]?)
}

// Returns the record of an auction by facility with an empty start set.
fn done(
    alloc: Global,
    scenario: Scenario,
    steps: Vec<Step>,
    map: &[(u32, u8)],
    total: u64,
) -> Result<Record, NoMemory> {
    Ok(Record {
        scenario,
        order: Order::ByFacility,
        ending: Ending::Done,
        start: Shown::Empty,
        steps: Items::from_vec(steps),
        map: ChannelMap::of(alloc, map)?,
        total,
    })
}

// Returns the record of the three stations' auction, with one worker of this budget and `last` as the outcome of the last step.
pub(crate) fn record_of_three(alloc: Global, budget: u32, last: Shown) -> Result<Record, NoMemory> {
    let scenario = three_bids_by_one(alloc, 70, 1, budget)?;
    let steps = steps(alloc, last)?;
    done(alloc, scenario, steps, &[(1, 15), (2, 14)], 60)
}

// Returns the record of an auction without stations.
pub(crate) fn record_of_none(alloc: Global) -> Result<Record, NoMemory> {
    let workers = vec![in alloc; learner(1000)]?;
    let scenario = auction_of(alloc, Vec::new(alloc), workers)?;
    done(alloc, scenario, Vec::new(alloc), &[], 0)
}
