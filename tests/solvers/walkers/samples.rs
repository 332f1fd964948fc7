//! Polls, walks and books for the tests.

use crate::solvers::samples::book;
use cert_types::answer::{Answer, Receipt, Refutation};
use cert_types::certify::certify;
use cert_types::poll::{Attempt, Poll};
use cert_types::query::is_query;
use cert_types::task::Task;
use pack_defs::book::Book;
use pack_defs::worker::{Kind, Worker};
use std::alloc::Global;
use walk_repack::walk::Walk;

// A poll that answers `now` for `left` calls, and then `next`.
#[derive(Drop)]
pub(crate) struct Turning {
    pub(crate) now: u64,
    pub(crate) left: u32,
    pub(crate) next: u64,
}

impl Poll for Turning {
    ghost last = { λ poll. poll.now };

    ghost goes = { λ poll other. ⊤ };

    ghost goes_nowhere = { λ poll. tt };

    ghost goes_on = { λ one two three e f. tt };

    fn current(&mut self) -> u64 {
        if self.left == 0 {
            self.now = self.next;
        }
        self.left = self.left.saturating_sub(1);
        self.now
    }
}

// The result of an attempt. A fit has the number of changed channels and the mark of these entries; a receipt has the number and the
// mark of its moves; a dead pair has its stations. `Wrong`: `certify` rejected the answer, the task is no query, or memory ran out.
#[derive(Clone, Copy, Debug, PartialEq, Eq)]
pub(crate) enum Said {
    Fit(usize, u64),
    Dead(u32, u32),
    Spent(usize, u64),
    Moved(u64),
    Wrong,
}

// Returns a checksum of the entries, which depends on their order.
pub(crate) fn mark_of(entries: &[(u32, u8)]) -> u64 {
    let mut mark: u64 = 0;
    for x in entries {
        mark = (mark.wrapping_mul(0x1001) ^ x.0 as u64) << 8 ^ x.1 as u64;
    }
    mark
}

// Returns a walk's answer to a query, checked by `certify`, which runs no code of the walk.
pub(crate) fn attempted(
    alloc: Global,
    worker: &Worker,
    book: &Book,
    task: &Task,
    poll: &mut Turning,
) -> Said {
    if !is_query(book, task) {
        return Said::Wrong;
    }
    let Ok(mut walk) = Walk::new(alloc, worker) else {
        return Said::Wrong;
    };
    match walk.attempt(alloc, book, task, poll) {
        Ok(Attempt::Said(answer)) => judged(alloc, worker, book, task, answer),
        Ok(Attempt::Moved { now }) => Said::Moved(now),
        Err(_) => Said::Wrong,
    }
}

fn judged(alloc: Global, worker: &Worker, book: &Book, task: &Task, answer: Answer) -> Said {
    match certify(alloc, book, task, worker, answer) {
        Ok(certified) => kind_of(certified.answer()),
        Err(_) => Said::Wrong,
    }
}

fn kind_of(answer: &Answer) -> Said {
    match answer {
        Answer::Fit(delta) => Said::Fit(delta.entries().len(), mark_of(delta.entries())),
        Answer::Refuted(Refutation::Dead(pair)) => Said::Dead(pair.f, pair.g),
        Answer::Spent(Receipt::Moves(moves)) => {
            Said::Spent(moves.as_slice().len(), mark_of(moves.as_slice()))
        }
        _ => Said::Wrong,
    }
}

// Returns a poll that always answers 5, the number of the queries.
pub(crate) fn steady() -> Turning {
    Turning {
        now: 5,
        left: 0,
        next: 5,
    }
}

pub(crate) fn walker(budget: u32, seed: u64) -> Worker {
    Worker {
        kind: Kind::Walk,
        budget,
        seed,
    }
}

// Returns a book of `stations` stations, numbered from 0, on `channels` channels from 14 on. Two stations whose numbers differ by
// less than `apart` may not share a channel.
pub(crate) fn row(alloc: Global, stations: u32, channels: u8, apart: u32) -> Option<Book> {
    let mut domains = String::new(alloc);
    let mut rows = String::new(alloc);
    for s in 0..stations {
        domains
            .push_str(&format!(in alloc; "DOMAIN,{s}").ok()?)
            .ok()?;
        for c in 14..14u8.saturating_add(channels) {
            domains.push_str(&format!(in alloc; ",{c}").ok()?).ok()?;
            for t in s.saturating_add(1)..s.saturating_add(apart).min(stations) {
                rows.push_str(&format!(in alloc; "CO,{c},{c},{s},{t}\n").ok()?)
                    .ok()?;
            }
        }
        domains.push_str("\n").ok()?;
    }
    book(alloc, &domains, &rows)
}
