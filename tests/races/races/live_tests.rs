//! Complete live auctions: the owners' answers decide, and values are ignored.

use crate::races::races::samples::all_on_air;
use crate::races::races::tests::{By, Test, are_of};
use crate::samples::books::three_stations;
use crate::samples::owners::{ALL_STAY, AS_BID, FIRST_LEAVES, FIRST_STAYS, SaidLines, owners_of_lines};
use crate::samples::scenarios::three_bids_by_one;
use crate::samples::workers::learner;
use auction_core::record::{Ending, Record};
use pack_defs::channel_map::ChannelMap;
use pack_defs::owners::Owners;
use pack_defs::scenario::Scenario;
use race_wave::run::run_live;
use solver_gate::gate::EmptyGate;
use std::alloc::{AllocError as NoMemory, Global};
use std::sync::Wait;
use std::test::Fail;
use std::thread::Threads;

// How an auction ends: its ending, total in cents, tests, and the stations on air.
type End = (Ending, u64, &'static [Test], &'static [u32]);

// Checks whether the record has these owners.
fn has_owners(record: &Record, owners: &Owners) -> bool {
    match record.owners() {
        Some(said) => said.lines() == owners.lines(),
        None => false,
    }
}

// Checks whether exactly these stations are on air.
fn are_on_air(map: &ChannelMap, stations: &[u32]) -> bool {
    for station in stations {
        if map.get(*station).is_none() {
            return false;
        }
    }
    map.len() as usize == stations.len()
}

fn is_end(record: &Record, end: End) -> bool {
    let (ending, total, tests, on_air) = end;
    record.ending == ending
        && record.total == total
        && are_of(record.steps.as_slice(), tests)
        && are_on_air(&record.map, on_air)
}

// Checks whether the live auction with these answers has this end.
fn ends<W: Threads + Wait + Sync>(
    rt: &W,
    alloc: Global,
    sc: &Scenario,
    lines: SaidLines,
    end: End,
) -> Result<bool, NoMemory> {
    let book = three_stations(alloc)?;
    let owners = owners_of_lines(alloc, lines)?;
    let record = run_live(rt, alloc, sc, &book, &owners, &EmptyGate)?;
    Ok(has_owners(&record, &owners) && is_end(&record, end))
}

// Returns the index of the first row whose auction ends otherwise.
fn ends_otherwise<W: Threads + Wait + Sync>(
    rt: &W,
    alloc: Global,
    sc: &Scenario,
    rows: &[(SaidLines, End)],
) -> Result<Option<usize>, NoMemory> {
    for i in 0..rows.len() {
        let (lines, end) = rows[i];
        if !ends(rt, alloc, sc, lines, end)? {
            return Ok(Some(i));
        }
    }
    Ok(None)
}

// The owners' answers and the expected end. The offers are 100, 60 and 20 cents, and two stations fit.
const LIVE: &[(SaidLines, End)] = &[
    // The same answers as with values of 50, 70 and 10 cents.
    (
        AS_BID,
        (
            Ending::Done,
            60,
            &[
                (1, 1, By::Fit),
                (1, 2, By::Fit),
                (1, 3, By::Fit),
                (2, 1, By::Fit),
                (2, 3, By::Proof),
            ],
            &[1, 2],
        ),
    ),
    // Station 2 declines the opening offer; its later answers do not count.
    (
        &[
            (0, 1, true),
            (1, 1, true),
            (1, 2, true),
            (2, 2, true),
            (0, 3, true),
            (1, 3, true),
            (2, 3, true),
        ],
        (
            Ending::Done,
            60,
            &[
                (1, 1, By::Fit),
                (1, 3, By::Fit),
                (2, 1, By::Same),
                (2, 3, By::Proof),
            ],
            &[1, 2],
        ),
    ),
    // Station 1 stays in each round, and is tested once more after the last fall.
    (
        FIRST_STAYS,
        (
            Ending::Done,
            20,
            &[
                (1, 1, By::Fit),
                (1, 2, By::Fit),
                (1, 3, By::Fit),
                (2, 1, By::Fit),
                (2, 3, By::Same),
                (3, 1, By::Proof),
            ],
            &[2, 3],
        ),
    ),
    // All stations stay in each round. Those that fit after the last fall go on air.
    (
        ALL_STAY,
        (
            Ending::Done,
            20,
            &[
                (1, 1, By::Fit),
                (1, 2, By::Fit),
                (1, 3, By::Fit),
                (2, 1, By::Same),
                (2, 2, By::Same),
                (2, 3, By::Same),
                (3, 1, By::Same),
                (3, 2, By::Fit),
                (3, 3, By::Proof),
            ],
            &[1, 2],
        ),
    ),
    // Station 1 leaves at once, and its later answer that it stays does not bring it back.
    (
        FIRST_LEAVES,
        (
            Ending::Done,
            60,
            &[
                (1, 1, By::Fit),
                (1, 2, By::Fit),
                (1, 3, By::Fit),
                (2, 2, By::Same),
                (2, 3, By::Proof),
            ],
            &[1, 2],
        ),
    ),
    // Stations 1 and 3 answer that they leave.
    (
        &[
            (0, 1, false),
            (0, 2, true),
            (1, 2, true),
            (2, 2, true),
            (0, 3, true),
            (1, 3, false),
        ],
        (
            Ending::Done,
            60,
            &[(1, 2, By::Fit), (1, 3, By::Fit), (2, 2, By::Proof)],
            &[1, 3],
        ),
    ),
    // All decline the opening offer: two say so and the third says nothing, or all say nothing.
    (
        &[(0, 1, false), (0, 2, false)],
        (Ending::StartRefuted, 0, &[], &[]),
    ),
    (&[], (Ending::StartRefuted, 0, &[], &[])),
];

// The owners' answers decide, in a scenario without values and in one with values of 50, 70 and 10 cents.
#[test]
fn owner_lines_decide_who_stays(rt: HostRuntime) -> Result<(), Fail> {
    let alloc = rt.alloc();
    let without = all_on_air(alloc, vec![in alloc; learner(1000)]?)?;
    assert_eq!(rt; ends_otherwise(&rt, alloc, &without, LIVE)?, None);
    let with = three_bids_by_one(alloc, 70, 1, 1000)?;
    assert_eq!(rt; ends_otherwise(&rt, alloc, &with, LIVE)?, None);
    Ok(())
}
