//! Complete auctions, run on threads by racing workers.

use crate::races::races::samples::all_on_air;
use crate::samples::books::three_stations;
use crate::samples::scenarios::{three_bids, three_bids_by_one};
use crate::samples::workers::learner;
use auction_core::auction::Auction;
use auction_core::record::{Ending, Record, Shown, Step};
use cert_types::answer::Refutation;
use pack_defs::book::Book;
use pack_defs::channel_map::ChannelMap;
use pack_defs::order::Order;
use pack_defs::scenario::Scenario;
use race_wave::run::{go_on, racers_of, run_auction};
use race_wave::serial::serial_turn;
use solver_gate::gate::{EmptyGate, Gate};
use std::alloc::{AllocError as NoMemory, Global};
use std::sync::Wait;
use std::test::Fail;
use std::thread::Threads;

// How a test is settled: by a fit, as the one before, by a proof, by a proof of this worker, or by no worker.
#[derive(Clone, Copy)]
pub(crate) enum By {
    Fit,
    Same,
    Proof,
    ProofOf(u32),
    None,
}

fn is_settled(shown: &Shown, by: By) -> bool {
    match (shown, by) {
        (Shown::Fits(_), By::Fit) | (Shown::Same, By::Same) => true,
        (Shown::Undecided(_), By::None) => true,
        (
            Shown::Refuted {
                worker: _,
                how: Refutation::Proof { .. },
            },
            By::Proof,
        ) => true,
        (
            Shown::Refuted {
                worker,
                how: Refutation::Proof { .. },
            },
            By::ProofOf(of),
        ) => *worker == of,
        _ => false,
    }
}

// The round and the station of a test, and how it is settled.
pub(crate) type Test = (u32, u32, By);

// Checks whether the steps are these tests, in order.
pub(crate) fn are_of(steps: &[Step], tests: &[Test]) -> bool {
    if steps.len() != tests.len() {
        return false;
    }
    for i in 0..steps.len() {
        let step = &steps[i];
        let (round, station, by) = tests[i];
        if step.round != round || step.station != station || !is_settled(&step.shown, by) {
            return false;
        }
    }
    true
}

// Checks whether only stations 1 and 2 are on air, each on its own channel.
fn are_two(map: &ChannelMap) -> bool {
    let channels = (map.get(1), map.get(2), map.len());
    channels == (Some(14), Some(15), 2) || channels == (Some(15), Some(14), 2)
}

fn is_end(record: &Record, ending: Ending, total: u64, tests: &[Test]) -> bool {
    let on_air = are_two(&record.map);
    record.ending == ending
        && record.total == total
        && on_air == (ending == Ending::Done)
        && are_of(record.steps.as_slice(), tests)
}

// Checks whether the auction of three stations has this ending, total and these tests.
fn ends<G: Gate + Sync, W: Threads + Wait + Sync>(
    rt: &W,
    alloc: Global,
    gate: &G,
    sc: &Scenario,
    ending: Ending,
    total: u64,
    tests: &[Test],
) -> Result<bool, NoMemory> {
    let book = three_stations(alloc)?;
    let record = run_auction(rt, alloc, sc, &book, gate)?;
    Ok(is_end(&record, ending, total, tests))
}

// Checks whether station 3 is frozen at 60 cents, with its last test settled by `last`.
pub(crate) fn freezes<G: Gate + Sync, W: Threads + Wait + Sync>(
    rt: &W,
    alloc: Global,
    gate: &G,
    sc: &Scenario,
    last: By,
) -> Result<bool, NoMemory> {
    ends(rt, alloc, gate, sc, Ending::Done, 60, &last_tests(last))
}

// Returns the tests of three stations, with `last` as the final one of station 3.
fn last_tests(last: By) -> [Test; 5] {
    [
        (1, 1, By::Fit),
        (1, 2, By::Fit),
        (1, 3, By::Fit),
        (2, 1, By::Fit),
        (2, 3, last),
    ]
}

// Checks the same ending of the auction by one worker of this budget.
fn one_freezes<W: Threads + Wait + Sync>(
    rt: &W,
    alloc: Global,
    budget: u32,
    last: By,
) -> Result<bool, NoMemory> {
    let sc = three_bids_by_one(alloc, 70, 1, budget)?;
    freezes(rt, alloc, &EmptyGate, &sc, last)
}

// Checks the same ending of the auction by one worker that resumes after this many turns on this thread.
fn freezes_behind<W: Threads + Wait + Sync>(
    rt: &W,
    alloc: Global,
    turns: u32,
) -> Result<bool, NoMemory> {
    let sc = three_bids_by_one(alloc, 70, 1, 1000)?;
    let book = three_stations(alloc)?;
    let auction = turned(alloc, &sc, &book, turns)?;
    let record = go_on(rt, alloc, auction, sc, &book, &EmptyGate)?;
    Ok(is_end(&record, Ending::Done, 60, &last_tests(By::ProofOf(0))))
}

// Returns the auction after this many turns on this thread.
fn turned(alloc: Global, sc: &Scenario, book: &Book, turns: u32) -> Result<Auction, NoMemory> {
    let mut racers = racers_of(alloc, sc.workers.as_slice(), book)?;
    let mut auction = Auction::start(alloc, sc, book, Order::ByVolume)?;
    for _turn in 0..turns {
        serial_turn(alloc, &mut auction, &mut racers)?;
    }
    Ok(auction)
}

// Checks the same ending of the auction by two workers of these budgets.
fn two_freeze<W: Threads + Wait + Sync>(
    rt: &W,
    alloc: Global,
    first: u32,
    second: u32,
    last: By,
) -> Result<bool, NoMemory> {
    let workers = vec![in alloc; learner(first), learner(second)]?;
    let sc = three_bids(alloc, 70, 1, workers)?;
    freezes(rt, alloc, &EmptyGate, &sc, last)
}

#[test]
fn three_stations_are_asked_by_a_worker(rt: HostRuntime) -> Result<(), Fail> {
    assert!(rt; one_freezes(&rt, rt.alloc(), 1000, By::ProofOf(0))?);
    assert!(rt; one_freezes(&rt, rt.alloc(), 1, By::None)?);
    Ok(())
}

// An auction resumes from its first query, from each later one, and from its end.
#[test]
fn three_stations_go_on_from_any_query(rt: HostRuntime) -> Result<(), Fail> {
    for turns in 0..7 {
        assert!(rt; freezes_behind(&rt, rt.alloc(), turns)?);
    }
    Ok(())
}

// Two workers decide the last test: neither does, either does, or only the second does.
#[test]
fn three_stations_are_asked_by_two_workers(rt: HostRuntime) -> Result<(), Fail> {
    assert!(rt; two_freeze(&rt, rt.alloc(), 1, 1, By::None)?);
    assert!(rt; two_freeze(&rt, rt.alloc(), 1000, 1000, By::Proof)?);
    assert!(rt; two_freeze(&rt, rt.alloc(), 1, 1000, By::ProofOf(1))?);
    Ok(())
}

// An auction runs with as many workers as a scenario may have.
#[test]
fn three_stations_are_asked_by_sixteen_workers(rt: HostRuntime) -> Result<(), Fail> {
    let alloc = rt.alloc();
    let w = learner(1000);
    let workers = vec![in alloc; w, w, w, w, w, w, w, w, w, w, w, w, w, w, w, w]?;
    let sc = three_bids(alloc, 70, 1, workers)?;
    assert!(rt; freezes(&rt, alloc, &EmptyGate, &sc, By::Proof)?);
    Ok(())
}

// A greater volume is tested first. Station 3 has volume 2, comes first in each round, and is frozen in the third, after station 1 has
// left.
#[test]
fn greater_volumes_are_tested_first(rt: HostRuntime) -> Result<(), Fail> {
    let alloc = rt.alloc();
    let sc = three_bids_by_one(alloc, 70, 2, 1000)?;
    let tests = [
        (1, 3, By::Fit),
        (1, 1, By::Fit),
        (1, 2, By::Fit),
        (2, 3, By::Fit),
        (2, 1, By::Fit),
        (3, 3, By::Proof),
    ];
    assert!(rt; ends(&rt, alloc, &EmptyGate, &sc, Ending::Done, 40, &tests)?);
    Ok(())
}

// Checks how the auction ends whose stations all start on air, with one worker of this budget.
fn start_ends<W: Threads + Wait + Sync>(
    rt: &W,
    alloc: Global,
    budget: u32,
    ending: Ending,
) -> Result<bool, NoMemory> {
    let sc = all_on_air(alloc, vec![in alloc; learner(budget)]?)?;
    ends(rt, alloc, &EmptyGate, &sc, ending, 0, &[])
}

#[test]
fn the_start_does_not_fit(rt: HostRuntime) -> Result<(), Fail> {
    assert!(rt; start_ends(&rt, rt.alloc(), 1000, Ending::StartRefuted)?);
    assert!(rt; start_ends(&rt, rt.alloc(), 1, Ending::StartUndecided)?);
    Ok(())
}
