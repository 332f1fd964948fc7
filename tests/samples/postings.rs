//! Auctions driven by postings. Each answer is checked before the posting.

use crate::samples::answers::{Given, answer};
use auction_core::auction::Auction;
use auction_core::posting::{Posting, Reply, Said};
use auction_core::record::Record;
use cert_types::answer::{Answer, CertifyFault, CertifyWhy, Place};
use cert_types::certified::Certified;
use cert_types::certify::certify;
use cert_types::task::Task;
use pack_defs::book::Book;
use pack_defs::order::Order;
use pack_defs::scenario::Scenario;
use pack_defs::worker::Worker;
use std::alloc::{AllocError as NoMemory, Global};

// Returns the certified answer of a worker to a query, or the place of the first error.
fn checked(
    alloc: Global,
    book: &Book,
    task: &Task,
    worker: &Worker,
    answer: Answer,
) -> Result<Result<Certified, Place>, NoMemory> {
    match certify(alloc, book, task, worker, answer) {
        Ok(certified) => Ok(Ok(certified)),
        Err(fault) => Ok(Err(place(fault)?)),
    }
}

// Returns the place of the first error.
fn place(fault: CertifyFault) -> Result<Place, NoMemory> {
    match fault.why {
        CertifyWhy::Rejected(place) => Ok(place),
        CertifyWhy::NoMemory => Err(NoMemory),
    }
}

// Returns the checked answer of a worker to the current query.
fn judged_answer(
    alloc: Global,
    auction: &Auction,
    worker: u32,
    answer: Answer,
) -> Result<Said, NoMemory> {
    let Some(task) = auction.task(alloc)? else {
        return Ok(Said::Bad(Place::Count));
    };
    let Some(of) = auction.workers().get(worker as usize) else {
        return Ok(Said::Bad(Place::Count));
    };
    match checked(alloc, auction.book(), &task, of, answer)? {
        Ok(certified) => return Ok(Said::Good(certified)),
        Err(place) => return Ok(Said::Bad(place)),
    }
}

/// Posts a worker's answer to a query. Returns the reply.
pub fn post(
    alloc: Global,
    auction: &mut Auction,
    worker: u32,
    number: u64,
    given: Given,
) -> Result<Reply, NoMemory> {
    auction.reserve()?;
    let answer = answer(alloc, given)?;
    let said = judged_answer(alloc, auction, worker, answer)?;
    Ok(auction.take(Posting {
        worker,
        number,
        said,
    }))
}

// Posts these answers of the first worker, each to the current query.
fn post_all(alloc: Global, auction: &mut Auction, answers: &[Given]) -> Result<(), NoMemory> {
    'answers: for given in answers {
        let number = auction.number();
        post(alloc, auction, 0, number, *given)?;
    }
    Ok(())
}

/// Returns the record of this auction after the first worker gives these answers, one per query. Returns `None` if the auction has
/// not ended then.
pub fn record_after(
    alloc: Global,
    sc: Scenario,
    book: &Book,
    order: Order,
    answers: &[Given],
) -> Result<Option<Record>, NoMemory> {
    let mut auction = Auction::start(alloc, &sc, book, order)?;
    post_all(alloc, &mut auction, answers)?;
    if !auction.ended() {
        return Ok(None);
    }
    Ok(Some(auction.into_result(alloc, sc)?))
}
