//! Both kinds of solver through `RacerKind`.

use cert_types::answer::{Answer, Receipt, Refutation};
use cert_types::certify::certify;
use cert_types::poll::{Attempt, Poll};
use cert_types::query::is_query;
use cert_types::task::Task;
use pack_defs::book::Book;
use pack_defs::channel_map::ChannelMap;
use pack_defs::domain::Domain;
use pack_defs::items::Items;
use pack_defs::pair::Pair;
use pack_defs::worker::{Kind, Worker};
use solver_gate::racer::{Racer, RacerKind};
use std::alloc::{AllocError as NoMemory, Global};
use std::test::Fail;

// A poll that always answers 1.
#[derive(Drop)]
struct First;

impl Poll for First {
    ghost last = { λ poll. 1 };

    ghost goes = { λ poll other. ⊤ };

    ghost goes_nowhere = { λ poll. tt };

    ghost goes_on = { λ one two three e f. tt };

    fn current(&mut self) -> u64 {
        1
    }
}

// The answer that `certify` accepted from a solver. `Wrong`: `certify` accepted none, the task is no query, or memory ran out.
#[derive(Clone, Copy, Debug, PartialEq, Eq)]
enum Said {
    Fit,
    Proof,
    DeadPair,
    Lines,
    Moves,
    Wrong,
}

// Returns the domain of a station that may use only channel 14.
fn on_14(alloc: Global, station: u32) -> Result<Domain, NoMemory> {
    let channels = Items::from_vec(Vec::from_slice(alloc, &[14])?);
    Ok(Domain { station, channels })
}

// Returns the book of stations 7 and 8 on channel 14, which they may not share.
fn two_stations(alloc: Global) -> Result<Book, NoMemory> {
    let pair = Pair {
        f: 7,
        a: 14,
        g: 8,
        b: 14,
    };
    let domains = [on_14(alloc, 7)?, on_14(alloc, 8)?];
    Book::build(alloc, 14, &[7, 8], &domains, &[pair])
}

// Returns query 1: whether station 8 fits beside the others of the set, given their last channels.
fn task(alloc: Global, set: &[u32], last: &[(u32, u8)]) -> Result<Task, NoMemory> {
    Ok(Task {
        number: 1,
        round: 1,
        station: Some(8),
        set: Items::from_vec(Vec::from_slice(alloc, set)?),
        last: ChannelMap::of(alloc, last)?,
    })
}

// Returns a solver's answer to a query, checked by `certify` for this worker.
fn attempted<R: Racer>(
    alloc: Global,
    racer: &mut R,
    worker: &Worker,
    book: &Book,
    task: &Task,
) -> Said {
    if !is_query(book, task) {
        return Said::Wrong;
    }
    match racer.attempt(alloc, book, task, &mut First) {
        Ok(Attempt::Said(answer)) => judged(alloc, worker, book, task, answer),
        _ => Said::Wrong,
    }
}

fn judged(alloc: Global, worker: &Worker, book: &Book, task: &Task, answer: Answer) -> Said {
    match certify(alloc, book, task, worker, answer) {
        Ok(certified) => kind_of(certified.answer()),
        Err(_) => Said::Wrong,
    }
}

fn kind_of(answer: &Answer) -> Said {
    match answer {
        Answer::Fit(_) => Said::Fit,
        Answer::Refuted(Refutation::Proof { subset: _, log: _ }) => Said::Proof,
        Answer::Refuted(Refutation::Dead(_)) => Said::DeadPair,
        Answer::Spent(Receipt::Lines(_)) => Said::Lines,
        Answer::Spent(Receipt::Moves(_)) => Said::Moves,
    }
}

// Returns the answer of a solver of this kind to the test of station 8.
fn of_kind(
    alloc: Global,
    kind: Kind,
    set: &[u32],
    last: &[(u32, u8)],
) -> Result<Said, NoMemory> {
    let book = two_stations(alloc)?;
    let task = task(alloc, set, last)?;
    let worker = Worker {
        kind,
        budget: 10,
        seed: 0,
    };
    let mut racer = RacerKind::for_worker(alloc, &worker)?;
    Ok(attempted(alloc, &mut racer, &worker, &book, &task))
}

#[test]
fn one_station_fits_by_a_worker_of_each_kind(rt: HostRuntime) -> Result<(), Fail> {
    for kind in [Kind::Cdcl, Kind::Walk] {
        assert_eq!(rt; of_kind(rt.alloc(), kind, &[8], &[])?, Said::Fit);
    }
    Ok(())
}

#[test]
fn two_stations_on_one_channel_are_refuted_by_a_worker_of_each_kind(
    rt: HostRuntime,
) -> Result<(), Fail> {
    let (set, last) = ([7, 8], [(7, 14)]);
    let by_learner = of_kind(rt.alloc(), Kind::Cdcl, &set, &last)?;
    assert_eq!(rt; by_learner, Said::Proof);
    let by_walker = of_kind(rt.alloc(), Kind::Walk, &set, &last)?;
    assert_eq!(rt; by_walker, Said::DeadPair);
    Ok(())
}
