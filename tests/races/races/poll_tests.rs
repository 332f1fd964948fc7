//! Workers ask their polls until another worker has answered.

use crate::races::races::samples::{after_wave, by_two_workers, other_query, settling};
use crate::samples::books::three_stations;
use crate::samples::gates::reaches_in_time;
use crate::samples::workers::learner;
use cert_types::poll::{Attempt, Poll};
use cert_types::task::Task;
use pack_defs::book::Book;
use pack_defs::worker::Worker;
use solver_gate::racer::Racer;
use std::alloc::{AllocError as NoMemory, Global};
use std::sync::atomic::{AtomicU64, Ordering};
use std::test::Fail;

// What two workers know of each other.
#[derive(Drop)]
struct Words {
    // The last query that a poll reported as current before the other worker could settle it.
    asked: AtomicU64,
    // How many attempts ended because the poll then reported the next query.
    learned: AtomicU64,
}

// A worker that settles every second query, once the other worker has asked its poll at that query. At the other queries this worker asks
// its poll until another query is current.
#[derive(Drop)]
struct Actor<'a> {
    worker: Worker,
    // 1 if the worker settles the queries of odd numbers, 0 if it settles the others.
    settles: u64,
    words: &'a Words,
}

impl Actor<'_> {
    // Asks the poll until another query is current, then ends the attempt.
    fn asks<P: Poll>(&self, number: u64, poll: &mut P) -> Result<Attempt, NoMemory> {
        if poll.current() != number {
            return Err(NoMemory);
        }
        self.words.asked.store(number, Ordering::SeqCst);
        let Some(now) = other_query(poll, number) else {
            return Err(NoMemory);
        };
        if now == number + 1 {
            self.words.learned.fetch_add(1, Ordering::SeqCst);
        }
        Ok(Attempt::Moved { now })
    }
}

impl Racer for Actor<'_> {
    ghost worker = { λ actor. actor.worker };

    fn attempt<P: Poll>(
        &mut self,
        alloc: Global,
        book: &Book,
        task: &Task,
        poll: &mut P,
    ) -> Result<Attempt, NoMemory> {
        let _ = book;
        if task.number % 2 != self.settles {
            return self.asks(task.number, poll);
        }
        if !reaches_in_time(&self.words.asked, task.number) {
            return Err(NoMemory);
        }
        settling(alloc, task.number)
    }
}

// A poll reports that another worker has answered. Two workers settle the five queries in turn. Each time, the poll of the other worker
// ends a long attempt, and that worker settles the next query. The last poll reports 6, the last query's number plus one.
#[test]
fn a_poll_reports_that_another_worker_answered(rt: HostRuntime) -> Result<(), Fail> {
    let alloc = rt.alloc();
    let words = Words {
        asked: AtomicU64::new(0),
        learned: AtomicU64::new(0),
    };
    let actor = |settles: u64| Actor {
        worker: learner(1000),
        settles,
        words: &words,
    };
    let racers = vec![in alloc; actor(0), actor(1)]?;
    let book = three_stations(alloc)?;
    let auction = by_two_workers(alloc, &book)?;
    let left = after_wave(&rt, alloc, &book, auction, racers)?;
    assert_eq!(rt; words.learned.load(Ordering::SeqCst), 5);
    assert_eq!(rt; left.refused.as_slice(), [false, false].as_slice());
    assert!(rt; left.done.is_ok() && left.auction.ended());
    assert_eq!(rt; left.auction.posted(), 5);
    Ok(())
}
