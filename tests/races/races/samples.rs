//! Helpers of the wave tests: asking a poll, running a wave of a test's own racers, and sample auctions.

use crate::samples::answers::{FOUR_FITS, answer};
use crate::samples::scenarios::{auction_of, bid, three_bids};
use crate::samples::workers::learner;
use answer_board::board::Board;
use auction_core::auction::Auction;
use cert_types::poll::{Attempt, Poll};
use pack_defs::book::Book;
use pack_defs::order::Order;
use pack_defs::scenario::Scenario;
use pack_defs::worker::Worker;
use race_wave::zip_runners::zip_runners;
use race_wave::unzip_runners::unzip_runners;
use race_wave::wave::wave;
use solver_gate::gate::EmptyGate;
use solver_gate::racer::Racer;
use std::alloc::{AllocError as NoMemory, Global};
use std::sync::Wait;
use std::thread;
use std::thread::Threads;

// How often a worker asks its poll at most. Each time takes a turn of the board's lock.
const ASKS: u32 = 1_000_000;

// Asks the poll until it reports another query than `number`, and returns that query. Returns `None` after `ASKS` asks.
pub(crate) fn other_query<P: Poll>(poll: &mut P, number: u64) -> Option<u64> {
    for _ in 0..ASKS {
        let now = poll.current();
        if now != number {
            return Some(now);
        }
        thread::yield_now();
    }
    None
}

// Returns the answer that settles this query, one of the five of stations 1 to 3.
pub(crate) fn settling(alloc: Global, number: u64) -> Result<Attempt, NoMemory> {
    let given = FOUR_FITS[number as usize - 1];
    Ok(Attempt::Said(answer(alloc, given)?))
}

// Returns the auction of stations 1 to 3 by two workers, at its first query.
pub(crate) fn by_two_workers(alloc: Global, book: &Book) -> Result<Auction, NoMemory> {
    let workers = vec![in alloc; learner(1000), learner(1000)]?;
    let sc = three_bids(alloc, 70, 1, workers)?;
    Auction::start(alloc, &sc, book, Order::ByFacility)
}

// The result of a wave.
#[derive(Drop)]
pub(crate) struct Left {
    pub(crate) auction: Auction,
    pub(crate) done: Result<(), NoMemory>,
    // For each worker in order, whether memory ran out.
    pub(crate) refused: Vec<bool>,
}

// Runs a wave of these racers, one for each worker in order.
pub(crate) fn after_wave<R: Racer + Send + Drop, W: Threads + Wait + Sync>(
    rt: &W,
    alloc: Global,
    book: &Book,
    auction: Auction,
    racers: Vec<R>,
) -> Result<Left, NoMemory> {
    let count = racers.len();
    let runners = Vec::with_capacity(alloc, count)?;
    let passes_left = Vec::with_capacity(alloc, count)?;
    let racers_left = Vec::with_capacity(alloc, count)?;
    let mut refused = Vec::with_capacity(alloc, count)?;
    let Ok((board, passes)) = Board::raise(alloc, auction, count as u32) else {
        return Err(NoMemory);
    };
    let mut runners = zip_runners(&board, passes, racers, runners);
    let done = wave(rt, alloc, &board, book, &mut runners, &EmptyGate);
    for runner in &runners {
        refused.push_reserved(runner.refused);
    }
    let (passes, _) = unzip_runners(runners, passes_left, racers_left);
    let auction = board.close(passes);
    Ok(Left {
        auction,
        done,
        refused,
    })
}

// Returns the auction of stations 1 to 3 without values, so that each starts on air.
pub(crate) fn all_on_air(alloc: Global, workers: Vec<Worker>) -> Result<Scenario, NoMemory> {
    let stations = vec![in alloc; bid(1, 1, None), bid(2, 1, None), bid(3, 1, None)]?;
    auction_of(alloc, stations, workers)
}
