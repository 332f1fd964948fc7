//! A wave in which memory runs out for one worker, one only waits for another to answer, and one answers.

use crate::races::races::samples::{after_wave, other_query};
use crate::samples::books::three_stations;
use crate::samples::gates::reaches_in_time;
use crate::samples::scenarios::three_bids;
use crate::samples::workers::learner;
use auction_core::auction::Auction;
use cert_types::poll::{Attempt, Poll};
use cert_types::task::Task;
use pack_defs::book::Book;
use pack_defs::order::Order;
use pack_defs::worker::Worker;
use solver_gate::racer::{Racer, RacerKind};
use std::alloc::{AllocError as NoMemory, Global};
use std::sync::atomic::{AtomicU64, Ordering};
use std::test::Fail;

// What a worker does with a query.
#[derive(Clone, Copy)]
enum Part {
    // Reports that memory ran out.
    Starves,
    // Asks its poll until another query is current.
    Waits,
    // Lets its solver try the query, once memory has run out for another worker.
    Solves,
}

// Returns the part of the worker at this place in the list.
fn part_of(place: usize) -> Part {
    match place {
        0 => Part::Starves,
        1 => Part::Waits,
        _ => Part::Solves,
    }
}

// A worker's solver and its part.
#[derive(Drop)]
struct Actor<'a> {
    solver: RacerKind,
    part: Part,
    // 1 once memory has run out for a worker.
    starved: &'a AtomicU64,
}

impl Racer for Actor<'_> {
    ghost worker = { λ racer. worker_of racer.solver };

    fn attempt<P: Poll>(
        &mut self,
        alloc: Global,
        book: &Book,
        task: &Task,
        poll: &mut P,
    ) -> Result<Attempt, NoMemory> {
        match self.part {
            Part::Starves => {
                self.starved.store(1, Ordering::SeqCst);
                Err(NoMemory)
            }
            Part::Waits => match other_query(poll, task.number) {
                Some(now) => Ok(Attempt::Moved { now }),
                None => Err(NoMemory),
            },
            Part::Solves => {
                if !reaches_in_time(self.starved, 1) {
                    return Err(NoMemory);
                }
                self.solver.attempt(alloc, book, task, poll)
            }
        }
    }
}

// Returns a solver with its part for each worker.
fn actors<'a>(
    alloc: Global,
    workers: &[Worker],
    starved: &'a AtomicU64,
) -> Result<Vec<Actor<'a>>, NoMemory> {
    let mut racers = Vec::new(alloc);
    for worker in workers {
        let solver = RacerKind::for_worker(alloc, worker)?;
        let part = part_of(racers.len());
        racers.push(Actor {
            solver,
            part,
            starved,
        })?;
    }
    Ok(racers)
}

// The wave continues without a worker whose memory ran out. The third worker first waits for that, then settles each query. The second
// worker learns this from its poll, and the board closes with these answers.
#[test]
fn one_worker_starves_one_waits_and_one_answers(rt: HostRuntime) -> Result<(), Fail> {
    let alloc = rt.alloc();
    let w = learner(1000);
    let sc = three_bids(alloc, 70, 1, vec![in alloc; w, w, w]?)?;
    let book = three_stations(alloc)?;
    let starved = AtomicU64::new(0);
    let racers = actors(alloc, sc.workers.as_slice(), &starved)?;
    let auction = Auction::start(alloc, &sc, &book, Order::ByVolume)?;
    let left = after_wave(&rt, alloc, &book, auction, racers)?;
    assert_eq!(rt; left.refused.as_slice(), [true, false, false].as_slice());
    assert!(rt; left.done.is_ok() && left.auction.ended());
    assert_eq!(rt; left.auction.posted(), 5);
    Ok(())
}
