//! A worker stays inside an attempt while another worker reads the board and posts.

use crate::races::races::samples::{after_wave, by_two_workers, settling};
use crate::samples::books::three_stations;
use crate::samples::gates::reaches_in_time;
use crate::samples::workers::learner;
use cert_types::poll::{Attempt, Poll};
use cert_types::task::Task;
use pack_defs::book::Book;
use pack_defs::worker::Worker;
use solver_gate::racer::Racer;
use std::alloc::{AllocError as NoMemory, Global};
use std::sync::atomic::{AtomicU64, Ordering};
use std::test::Fail;

// What two workers know of each other.
#[derive(Drop)]
struct Words {
    // 1 once the worker that stays is inside an attempt.
    inside: AtomicU64,
    // The last query that the other worker tried.
    tried: AtomicU64,
}

// A worker that settles each query and never asks its poll. If the worker stays, it first waits until the other tries query 5. Otherwise it
// first waits until the other is inside an attempt.
#[derive(Drop)]
struct Actor<'a> {
    worker: Worker,
    stays: bool,
    words: &'a Words,
}

impl Actor<'_> {
    // Waits for the other worker's progress. Returns whether it came in time.
    fn is_met(&self, number: u64) -> bool {
        if self.stays {
            self.words.inside.store(1, Ordering::SeqCst);
            return reaches_in_time(&self.words.tried, 5);
        }
        self.words.tried.store(number, Ordering::SeqCst);
        reaches_in_time(&self.words.inside, 1)
    }
}

impl Racer for Actor<'_> {
    ghost worker = { λ actor. actor.worker };

    fn attempt<P: Poll>(
        &mut self,
        alloc: Global,
        book: &Book,
        task: &Task,
        poll: &mut P,
    ) -> Result<Attempt, NoMemory> {
        let _ = (book, poll);
        if !self.is_met(task.number) {
            return Err(NoMemory);
        }
        settling(alloc, task.number)
    }
}

// A worker reads the board and posts while another is inside an attempt. The first worker stays inside its attempt at query 1 until the
// second has settled four queries and read five. If an attempt held the board's turn, one of the two would wait in vain and stop.
#[test]
fn a_worker_looks_and_posts_while_another_is_inside_an_attempt(
    rt: HostRuntime,
) -> Result<(), Fail> {
    let alloc = rt.alloc();
    let words = Words {
        inside: AtomicU64::new(0),
        tried: AtomicU64::new(0),
    };
    let actor = |stays: bool| Actor {
        worker: learner(1000),
        stays,
        words: &words,
    };
    let racers = vec![in alloc; actor(true), actor(false)]?;
    let book = three_stations(alloc)?;
    let auction = by_two_workers(alloc, &book)?;
    let left = after_wave(&rt, alloc, &book, auction, racers)?;
    assert_eq!(rt; left.refused.as_slice(), [false, false].as_slice());
    assert!(rt; left.done.is_ok() && left.auction.ended());
    Ok(())
}
