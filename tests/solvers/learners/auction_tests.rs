//! One solver answers the queries of complete auctions. What the solver keeps between queries changes no answer.

use crate::solvers::learners::samples::{ALWAYS, Said, attempted, by_chance, learner, packing};
use crate::solvers::samples::task_of;
use cdcl_prove::cdcl::Cdcl;
use cdcl_prove::incremental::SearchCounts;
use cert_types::query::is_query;
use cert_types::task::Task;
use pack_defs::book::Book;
use pack_defs::channel_map::ChannelMap;
use pack_defs::worker::Worker;
use plain_pack::search::fits;
use std::alloc::{AllocError as NoMemory, Global};
use std::test::Fail;

const STATIONS: u32 = 12;

// An auction in progress: the stations on air and their last channels, which the plain search found.
#[derive(Drop)]
struct Auction {
    book: Book,
    set: Vec<u32>,
    last: ChannelMap,
}

impl Auction {
    // Returns an auction over a pseudorandom book, in which no station is on air.
    fn of(alloc: Global, seed: u64) -> Option<Auction> {
        Some(Auction {
            book: packing(alloc, STATIONS, 3, |s, t, c| by_chance(seed, s, t, c))?,
            set: Vec::new(alloc),
            last: ChannelMap::of(alloc, &[]).ok()?,
        })
    }

    // Returns the query that tests a station.
    fn query(&self, alloc: Global, station: u32) -> Result<Task, NoMemory> {
        let mut set = Vec::from_slice(alloc, &self.set)?;
        set.push(station)?;
        task_of(alloc, Some(station), &set, self.last.entries())
    }

    // Tests a station by the plain search, and also by the solver if `turn.heard`. If the station fits and `turn.stays`, the station
    // goes on air. Returns whether the solver agrees with the plain search.
    fn test(
        &mut self,
        alloc: Global,
        solver: &mut Cdcl,
        worker: &Worker,
        station: u32,
        turn: Turn,
    ) -> Option<bool> {
        let task = self.query(alloc, station).ok()?;
        if !is_query(&self.book, &task) {
            return None;
        }
        let map = fits(alloc, &self.book, task.set.as_slice()).ok()?;
        let mut agrees = true;
        if turn.heard {
            let said = attempted(alloc, solver, worker, &self.book, &task, ALWAYS);
            agrees = match said {
                Said::Fit => map.is_some(),
                Said::Refuted(_) => map.is_none(),
                _ => false,
            };
        }
        if let Some(map) = map {
            if turn.stays {
                self.set.push(station).ok()?;
                self.last = map;
            }
        }
        Some(agrees)
    }
}

// Pseudorandom choices for one test: whether the solver hears the query, and whether a station that fits goes on air.
#[derive(Clone, Copy)]
struct Turn {
    heard: bool,
    stays: bool,
}

// Runs one solver over `auctions` interleaved auctions and returns its search counters. The solver hears all queries or only some.
// Returns `None` if the solver once disagrees with the plain search.
fn searched(alloc: Global, first: u64, auctions: u64, hears_all: bool) -> Option<SearchCounts> {
    let worker = learner(10_000, first);
    let mut solver = Cdcl::new(alloc, &worker).ok()?;
    let mut all = Vec::new(alloc);
    for seed in first..first.saturating_add(auctions) {
        all.push(Auction::of(alloc, seed)?).ok()?;
    }
    for s in 0..STATIONS {
        for i in 0..all.len() {
            let key = first.saturating_add(i as u64);
            let turn = Turn {
                heard: hears_all || by_chance(key, s, 98, 14),
                stays: !by_chance(key, s, 98, 15) || !by_chance(key, s, 99, 15),
            };
            let auction = all.get_mut(i)?;
            if !auction.test(alloc, &mut solver, &worker, s, turn)? {
                return None;
            }
        }
    }
    Some(solver.search_counts())
}

#[test]
fn one_solver_agrees_over_a_whole_auction(rt: HostRuntime) -> Result<(), Fail> {
    let (mut fits, mut refuted) = (0u64, 0u64);
    for first in 0..8 {
        let searched = searched(rt.alloc(), first, 1, true).ok_or("another answer")?;
        assert_eq!(rt; searched.left, 0, "auction {first}");
        fits = fits.saturating_add(searched.fits);
        refuted = refuted.saturating_add(searched.refuted);
    }
    assert!(rt;
        fits > 4 && refuted > 1,
        "{fits} fits and {refuted} refutations"
    );
    Ok(())
}

#[test]
fn one_solver_agrees_over_two_auctions_and_over_some_queries(rt: HostRuntime) -> Result<(), Fail> {
    for (auctions, hears_all) in [(2, true), (1, false)] {
        for first in 0..8 {
            let searched = searched(rt.alloc(), first, auctions, hears_all);
            assert!(rt; searched.is_some(), "{auctions} auctions from {first}");
        }
    }
    Ok(())
}
