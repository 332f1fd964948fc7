//! Replies to postings on a board, from one thread and from several.

use crate::samples::answers::{Given, answer};
use crate::samples::books::three_stations;
use crate::samples::scenarios::three_bids;
use crate::samples::workers::learner;
use answer_board::board::{Board, Pass};
use auction_core::auction::Auction;
use auction_core::posting::Reply;
use cert_types::answer::Place;
use pack_defs::order::Order;
use pack_defs::pair::Pair;
use std::alloc::{AllocError as NoMemory, Global};
use std::sync::Wait;
use std::sync::atomic::{AtomicU64, Ordering};
use std::test::Fail;
use std::thread;
use std::thread::Threads;

// The query of a posting, its answer, the expected reply, and the query that is current afterwards.
type Case = (u64, Given, Reply, u64);

const WRONG_QUERY: Reply = Reply::WrongQuery { now: 1 };

const TOO_LATE: Reply = Reply::WrongQuery { now: 2 };

const NEXT_2: Reply = Reply::Advanced { next: Some(2) };

const NEXT_3: Reply = Reply::Advanced { next: Some(3) };

const NEXT_4: Reply = Reply::Advanced { next: Some(4) };

const NEXT_5: Reply = Reply::Advanced { next: Some(5) };

const AT_STATION_1: Reply = Reply::Rejected {
    place: Place::Station(1),
};

const AT_STATION_2: Reply = Reply::Rejected {
    place: Place::Station(2),
};

const AT_KIND: Reply = Reply::Rejected { place: Place::Kind };

const AT_PAIR: Reply = Reply::Rejected {
    place: Place::PairOf(BOTH_ON_14),
};

const AT_LINE_1: Reply = Reply::Rejected {
    place: Place::LineAt(1),
};

const BOTH_ON_14: Pair = Pair {
    f: 1,
    a: 14,
    g: 2,
    b: 14,
};

// Postings, each with the index of its pass: by a pass without a worker, for another query, invalid or late. One settles the first query.
const POSTINGS: &[(usize, Case)] = &[
    (2, (1, Given::Fit(1, 14), Reply::Stranger, 1)),
    (0, (0, Given::Fit(1, 14), WRONG_QUERY, 1)),
    (0, (1, Given::FitNothing, AT_STATION_1, 1)),
    (0, (1, Given::Fit(1, 16), AT_STATION_1, 1)),
    (1, (1, Given::FitTwo(14, 14), AT_STATION_2, 1)),
    (1, (1, Given::Moved(1, 15), AT_KIND, 1)),
    (1, (1, Given::Fit(1, 14), NEXT_2, 2)),
    (0, (1, Given::Fit(1, 14), TOO_LATE, 2)),
    (0, (2, Given::Dead(BOTH_ON_14), AT_PAIR, 2)),
    (0, (2, Given::EmptyProof, AT_LINE_1, 2)),
];

// Postings up to the end and one after the end. One receipt is noted, one was noted before, and one settles the last query.
const TO_THE_END: &[(usize, Case)] = &[
    (0, (1, Given::Fit(1, 14), NEXT_2, 2)),
    (1, (2, Given::Fit(2, 14), NEXT_3, 3)),
    (0, (3, Given::Fit(3, 15), NEXT_4, 4)),
    (1, (4, Given::Fit(1, 15), NEXT_5, 5)),
    (0, (5, Given::Spent, Reply::Noted, 5)),
    (0, (5, Given::Spent, Reply::AlreadySpent, 5)),
    (2, (5, Given::Fit(3, 14), Reply::Stranger, 5)),
    (1, (5, Given::Spent, Reply::Advanced { next: None }, 6)),
    (0, (6, Given::Spent, Reply::Ended, 6)),
];

// Fits that settle the first three queries, postings for query 3 at query 4, and a fit that settles query 4.
const OLDER_QUERY: &[(usize, Case)] = &[
    (0, (1, Given::Fit(1, 14), NEXT_2, 2)),
    (0, (2, Given::Fit(2, 14), NEXT_3, 3)),
    (0, (3, Given::Fit(3, 15), NEXT_4, 4)),
    (0, (3, Given::Fit(3, 15), Reply::WrongQuery { now: 4 }, 4)),
    (1, (3, Given::Fit(3, 15), Reply::WrongQuery { now: 4 }, 4)),
    (0, (4, Given::Fit(1, 15), NEXT_5, 5)),
];

// Answers to all five queries, then postings after the end. These are for the next number, earlier queries and no query, by both workers
// and by a pass without a worker.
const AFTER_THE_END: &[(usize, Case)] = &[
    (0, (1, Given::Fit(1, 14), NEXT_2, 2)),
    (0, (2, Given::Fit(2, 14), NEXT_3, 3)),
    (0, (3, Given::Fit(3, 15), NEXT_4, 4)),
    (0, (4, Given::Fit(1, 15), NEXT_5, 5)),
    (1, (5, Given::Refuted, Reply::Advanced { next: None }, 6)),
    (0, (6, Given::Refuted, Reply::Ended, 6)),
    (1, (5, Given::Refuted, Reply::Ended, 6)),
    (0, (1, Given::Fit(1, 14), Reply::Ended, 6)),
    (1, (0, Given::FitNothing, Reply::Ended, 6)),
    (2, (6, Given::Refuted, Reply::Ended, 6)),
];

// Returns the auction of three stations at its first query, with two workers of this budget.
pub(crate) fn auction(alloc: Global, budget: u32) -> Result<Auction, NoMemory> {
    let workers = vec![in alloc; learner(budget), learner(budget)]?;
    let sc = three_bids(alloc, 70, 1, workers)?;
    let book = three_stations(alloc)?;
    Auction::start(alloc, &sc, &book, Order::ByFacility)
}

// Posts an answer and returns the reply.
pub(crate) fn reply_of<R: Wait>(
    rt: &R,
    alloc: Global,
    board: &Board,
    pass: &mut Pass,
    number: u64,
    given: Given,
) -> Result<Reply, NoMemory> {
    let answer = answer(alloc, given)?;
    let Ok(reply) = board.post(rt, alloc, pass, number, answer) else {
        return Err(NoMemory);
    };
    Ok(reply)
}

// Checks whether a posting gets its expected reply and leaves the expected query current.
fn is_reply<R: Wait>(rt: &R, alloc: Global, board: &Board, pass: &mut Pass, case: Case) -> bool {
    let (number, given, reply, after) = case;
    let Ok(got) = reply_of(rt, alloc, board, pass, number, given) else {
        return false;
    };
    got == reply && board.current(rt, pass) == after
}

// Checks whether each posting, through the pass with its index, gets its expected reply.
fn are_replies<R: Wait>(
    rt: &R,
    alloc: Global,
    board: &Board,
    passes: &mut [Pass],
    cases: &[(usize, Case)],
) -> bool {
    let mut all = true;
    for (by, case) in cases {
        if *by >= passes.len() {
            return false;
        }
        let expected = is_reply(rt, alloc, board, &mut passes[*by], *case);
        all = all & expected;
    }
    all
}

// Checks whether each posting gets its expected reply, and whether the history has all of them. The board has one pass more than workers,
// and each worker has this budget.
fn are_replies_on<R: Wait>(
    rt: &R,
    alloc: Global,
    budget: u32,
    cases: &[(usize, Case)],
) -> Result<bool, NoMemory> {
    let auction = auction(alloc, budget)?;
    let Ok((board, mut passes)) = Board::raise(alloc, auction, 3) else {
        return Err(NoMemory);
    };
    let expected = are_replies(rt, alloc, &board, &mut passes, cases);
    let auction = board.close(passes);
    Ok(expected && auction.posted() == cases.len() as u64)
}

// Each posting gets its reply: stranger, wrong query, rejected, advanced, noted, already spent or ended.
#[test]
fn each_reply(rt: HostRuntime) -> Result<(), Fail> {
    let alloc = rt.alloc();
    assert!(rt; are_replies_on(&rt, alloc, 1, POSTINGS)?);
    assert!(rt; are_replies_on(&rt, alloc, 1, TO_THE_END)?);
    Ok(())
}

// An answer for an older query gets `WrongQuery` from either worker, and the current query can still be settled.
#[test]
fn older_answer_gets_wrong_query(rt: HostRuntime) -> Result<(), Fail> {
    assert!(rt; are_replies_on(&rt, rt.alloc(), 1000, OLDER_QUERY)?);
    Ok(())
}

// Every posting after the end gets `Ended`, for any answer and any pass. `current` then returns 6, the last query's number plus one.
#[test]
fn every_posting_after_the_end_gets_ended(rt: HostRuntime) -> Result<(), Fail> {
    assert!(rt; are_replies_on(&rt, rt.alloc(), 1000, AFTER_THE_END)?);
    Ok(())
}

// Counts over passes that post at once.
#[derive(Drop)]
struct Counts {
    // The number of replies that were possible for their posting.
    possible: AtomicU64,
    // The number of postings that settled the first query.
    settled: AtomicU64,
}

// Returns the reply to a posting of the table while the first query is current.
fn early_reply(case: Case) -> Reply {
    let (number, _, reply, _) = case;
    if number == 2 {
        return WRONG_QUERY;
    }
    // The fit is valid; only the order of the table makes the fit late.
    if reply == TOO_LATE {
        return NEXT_2;
    }
    reply
}

// Returns the reply to a posting of the table while the second query is current. No posting of the table settles the second query.
fn late_reply(case: Case) -> Reply {
    let (number, _, reply, _) = case;
    if number == 2 {
        return reply;
    }
    TOO_LATE
}

// Checks whether a posting may get this reply while the other passes post too. `settled` says whether an earlier reply to this pass showed
// that the first query is settled.
fn is_possible(case: Case, settled: bool, reply: Reply) -> bool {
    if reply == late_reply(case) {
        return true;
    }
    !settled && reply == early_reply(case)
}

// Posts the table's postings of this pass in order and counts the replies. Stops at the first reply that is not possible.
fn post_own<R: Wait>(
    rt: &R,
    alloc: Global,
    board: &Board,
    place: usize,
    pass: &mut Pass,
    counts: &Counts,
) {
    let mut settled = false;
    for (by, case) in POSTINGS {
        if *by != place {
            continue;
        }
        let (number, given, _, _) = *case;
        let Ok(reply) = reply_of(rt, alloc, board, pass, number, given) else {
            return;
        };
        if !is_possible(*case, settled, reply) {
            return;
        }
        counts.possible.fetch_add(1, Ordering::SeqCst);
        if reply == NEXT_2 {
            counts.settled.fetch_add(1, Ordering::SeqCst);
        }
        settled = reply == NEXT_2 || reply == late_reply(*case);
    }
}

// Posts the table, each pass in its own thread.
fn all_post<W: Threads + Wait + Sync>(
    rt: &W,
    alloc: Global,
    board: &Board,
    passes: &mut [Pass],
    counts: &Counts,
) {
    let part = |place: usize, pass: &mut Pass| { post_own(rt, alloc, board, place, pass, counts) };
    thread::for_each_mut(rt, passes, 3, &part);
}

// Lets three threads post to one board. Returns the length of its history and the current query.
fn left_by_all<W: Threads + Wait + Sync>(
    rt: &W,
    alloc: Global,
    counts: &Counts,
) -> Result<(u64, u64), NoMemory> {
    let auction = auction(alloc, 1)?;
    let Ok((board, mut passes)) = Board::raise(alloc, auction, 3) else {
        return Err(NoMemory);
    };
    all_post(rt, alloc, &board, &mut passes, counts);
    let auction = board.close(passes);
    Ok((auction.posted(), auction.number()))
}

// Three threads that post at once get ten possible replies. Exactly one of the two valid answers to the first query settles it.
#[test]
fn three_threads_post_at_once(rt: HostRuntime) -> Result<(), Fail> {
    let counts = Counts {
        possible: AtomicU64::new(0),
        settled: AtomicU64::new(0),
    };
    assert_eq!(rt; left_by_all(&rt, rt.alloc(), &counts)?, (10, 2));
    assert_eq!(rt; counts.possible.load(Ordering::SeqCst), 10);
    assert_eq!(rt; counts.settled.load(Ordering::SeqCst), 1);
    Ok(())
}
