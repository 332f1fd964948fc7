//! Two passes post to one board, and the second is used after the first.

use crate::races::boards::tests::{auction, reply_of};
use crate::samples::answers::{FOUR_FITS, Given};
use answer_board::board::{Board, Pass};
use auction_core::auction::Auction;
use auction_core::posting::Reply;
use std::alloc::{AllocError as NoMemory, Global};
use std::sync::Wait;
use std::test::Fail;
use std::thread;
use std::thread::Threads;

// Answers query 1 through the first pass. Returns the reply and the query that the pass then reads.
fn first_pass_reply<R: Wait>(
    rt: &R,
    alloc: Global,
    board: &Board,
    pass: &mut Pass,
) -> Result<(Reply, u64), NoMemory> {
    let reply = reply_of(rt, alloc, board, pass, 1, Given::Fit(1, 14))?;
    Ok((reply, board.current(rt, pass)))
}

// Answers query 1 with another fit through the second pass, in a new thread. Returns the reply.
fn later_thread_reply<W: Threads + Wait + Sync>(
    rt: &W,
    alloc: Global,
    board: &Board,
    pass: &mut Pass,
) -> Result<Reply, NoMemory> {
    let (reply, ()) = thread::join(
        rt,
        || reply_of(rt, alloc, board, pass, 1, Given::Fit(1, 15)),
        || {},
    );
    reply
}

// Posts through both passes; the second thread starts after the first reply.
fn replies_in_sequence<W: Threads + Wait + Sync>(
    rt: &W,
    alloc: Global,
    board: &Board,
    passes: &mut [Pass],
) -> Result<(Reply, u64, Reply), NoMemory> {
    let (reply, now) = first_pass_reply(rt, alloc, board, &mut passes[0])?;
    let later = later_thread_reply(rt, alloc, board, &mut passes[1])?;
    Ok((reply, now, later))
}

// A thread that starts after query 1 is settled gets `WrongQuery` for a valid fit of query 1. Both postings are in the history.
#[test]
fn later_answer_gets_wrong_query(rt: HostRuntime) -> Result<(), Fail> {
    let alloc = rt.alloc();
    let auction = auction(alloc, 1000)?;
    let Ok((board, mut passes)) = Board::raise(alloc, auction, 2) else {
        return Err(NoMemory)?;
    };
    let replies = replies_in_sequence(&rt, alloc, &board, &mut passes);
    let auction = board.close(passes);
    let advanced = Reply::Advanced { next: Some(2) };
    let too_late = Reply::WrongQuery { now: 2 };
    assert_eq!(rt; replies?, (advanced, 2, too_late));
    assert_eq!(rt; auction.posted(), 2);
    assert_eq!(rt; auction.number(), 2);
    Ok(())
}

// Settles four queries through the first pass. Returns the reply to the second pass, which posts a receipt for query 5.
fn spends_at_query_5<R: Wait>(
    rt: &R,
    alloc: Global,
    board: &Board,
    passes: &mut [Pass],
) -> Result<Reply, NoMemory> {
    for number in 1..5 {
        let fit = FOUR_FITS[number as usize - 1];
        reply_of(rt, alloc, board, &mut passes[0], number, fit)?;
    }
    reply_of(rt, alloc, board, &mut passes[1], 5, Given::Spent)
}

// Returns the reply to the second pass, and the auction after the board is closed.
fn after_a_receipt<R: Wait>(rt: &R, alloc: Global) -> Result<(Reply, Auction), NoMemory> {
    let auction = auction(alloc, 1)?;
    let Ok((board, mut passes)) = Board::raise(alloc, auction, 2) else {
        return Err(NoMemory);
    };
    let reply = spends_at_query_5(rt, alloc, &board, &mut passes);
    let auction = board.close(passes);
    Ok((reply?, auction))
}

// A receipt that pass 1 posts is noted for worker 1.
#[test]
fn a_receipt_is_noted_for_the_worker_of_its_pass(rt: HostRuntime) -> Result<(), Fail> {
    let (reply, auction) = after_a_receipt(&rt, rt.alloc())?;
    assert_eq!(rt; reply, Reply::Noted);
    assert_eq!(rt; (auction.noted(0), auction.noted(1)), (false, true));
    assert_eq!(rt; auction.posted(), 5);
    Ok(())
}
