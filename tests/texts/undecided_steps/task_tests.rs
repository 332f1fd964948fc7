//! `task_at` rebuilds the query of a step from the record of a small auction.

use crate::samples::books::{lone_station, three_stations};
use crate::samples::scenarios::{lone_bid, three_bids_by_one};
use crate::texts::undecided_steps::samples::record_in;
use crate::texts::complete_texts::{LONE_STATION, SECOND_ON_AIR, THREE_STATIONS};
use auction_core::record::Record;
use undecided_tests::task::task_at;
use pack_defs::book::Book;
use pack_defs::scenario::Scenario;
use std::alloc::{AllocError as NoMemory, Global};
use std::test::Fail;

// The query of a step: its number, round and station, its set, and its last map.
type Row<'a> = (u64, u32, u32, &'a [u32], &'a [(u32, u8)]);

// Checks whether the query of this step is the row's.
fn is_asked(
    alloc: Global,
    rec: &Record,
    book: &Book,
    step: u32,
    row: Row<'_>,
) -> Result<bool, NoMemory> {
    let task = task_at(alloc, rec, book, step)?;
    if task.number != row.0 || task.round != row.1 || task.station != Some(row.2) {
        return Ok(false);
    }
    Ok(task.set.as_slice() == row.3 && task.last.entries() == row.4)
}

// Returns the number, from 1, of the first step whose query differs from its row. Returns 0 if the text has no valid record with as many
// steps as rows.
fn first_other(
    alloc: Global,
    sc: &Scenario,
    book: &Book,
    text: &[u8],
    rows: &[Row<'_>],
) -> Result<Option<usize>, NoMemory> {
    let Some(rec) = record_in(alloc, sc, book, text) else {
        return Ok(Some(0));
    };
    if rec.steps.as_slice().len() != rows.len() || rows.len() > 9 {
        return Ok(Some(0));
    }
    for k in 0..rows.len() {
        if !is_asked(alloc, &rec, book, k as u32 + 1, rows[k])? {
            return Ok(Some(k + 1));
        }
    }
    Ok(None)
}

// The set and the map are those before the step; station 2 is tested alone.
const OF_WHOLE: &[Row] = &[
    (1, 1, 1, &[1], &[]),
    (2, 1, 2, &[2], &[]),
    (3, 1, 3, &[2, 3], &[(2, 14)]),
    (4, 2, 1, &[1, 2], &[(2, 14)]),
    (5, 2, 3, &[1, 2, 3], &[(1, 15), (2, 14)]),
];

// The third step needed no query. Its query would have had number 4, which is the number of the fourth step's query.
const OF_BESIDE: &[Row] = &[
    (2, 1, 1, &[1, 2], &[(2, 14)]),
    (3, 1, 3, &[2, 3], &[(2, 14)]),
    (4, 2, 1, &[1, 2], &[(2, 14)]),
    (4, 2, 3, &[1, 2, 3], &[(1, 15), (2, 14)]),
];

#[test]
fn queries_are_rebuilt(rt: HostRuntime) -> Result<(), Fail> {
    let alloc = rt.alloc();
    let book = three_stations(alloc)?;
    let sc = three_bids_by_one(alloc, 70, 1, 1000)?;
    assert_eq!(rt;
        first_other(alloc, &sc, &book, THREE_STATIONS, OF_WHOLE)?,
        None
    );
    let sc = three_bids_by_one(alloc, 101, 1, 1000)?;
    assert_eq!(rt;
        first_other(alloc, &sc, &book, SECOND_ON_AIR, OF_BESIDE)?,
        None
    );
    Ok(())
}

#[test]
fn a_station_without_a_channel_has_a_set(rt: HostRuntime) -> Result<(), Fail> {
    let alloc = rt.alloc();
    let book = lone_station(alloc)?;
    let sc = lone_bid(alloc)?;
    assert_eq!(rt;
        first_other(alloc, &sc, &book, LONE_STATION, &[(1, 1, 1, &[1], &[])])?,
        None
    );
    Ok(())
}
