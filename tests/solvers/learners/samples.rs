//! Solvers and queries for the tests.

use crate::solvers::samples::book;
use cdcl_prove::cdcl::Cdcl;
use cert_types::answer::{Answer, Receipt, Refutation};
use cert_types::certify::certify;
use cert_types::poll::{Attempt, Poll};
use cert_types::query::is_query;
use cert_types::task::Task;
use pack_defs::book::Book;
use pack_defs::worker::{Kind, Worker};
use std::alloc::Global;

// A poll that answers 5, the number of the queries, `left` times, and then 6.
#[derive(Drop)]
struct Turning {
    now: u64,
    left: u32,
}

impl Poll for Turning {
    ghost last = { λ poll. poll.now };

    ghost goes = { λ poll other. ⊤ };

    ghost goes_nowhere = { λ poll. tt };

    ghost goes_on = { λ one two three e f. tt };

    fn current(&mut self) -> u64 {
        if self.left == 0 {
            self.now = 6;
        }
        self.left = self.left.saturating_sub(1);
        self.now
    }
}

// More answers than any test polls for.
pub(crate) const ALWAYS: u32 = u32::MAX;

// The result of an attempt, with the number of proof lines. `Wrong`: `certify` rejected the answer, the answer is from a walk, the
// task is no query, or memory ran out.
#[derive(Clone, Copy, Debug, PartialEq, Eq)]
pub(crate) enum Said {
    Fit,
    Refuted(usize),
    Spent(usize),
    Moved(u64),
    Wrong,
}

// Returns the solver's answer to a query, checked by `certify`, which runs no solver code. The poll reports the query as current
// `stands` times.
pub(crate) fn attempted(
    alloc: Global,
    solver: &mut Cdcl,
    worker: &Worker,
    book: &Book,
    task: &Task,
    stands: u32,
) -> Said {
    if !is_query(book, task) {
        return Said::Wrong;
    }
    let mut poll = Turning {
        now: 5,
        left: stands,
    };
    match solver.attempt(alloc, book, task, &mut poll) {
        Ok(Attempt::Said(answer)) => judged(alloc, worker, book, task, answer),
        Ok(Attempt::Moved { now }) => Said::Moved(now),
        Err(_) => Said::Wrong,
    }
}

fn judged(alloc: Global, worker: &Worker, book: &Book, task: &Task, answer: Answer) -> Said {
    match certify(alloc, book, task, worker, answer) {
        Ok(certified) => kind_of(certified.answer()),
        Err(_) => Said::Wrong,
    }
}

fn kind_of(answer: &Answer) -> Said {
    match answer {
        Answer::Fit(_) => Said::Fit,
        Answer::Refuted(Refutation::Proof { subset: _, log }) => Said::Refuted(log.lines.len()),
        Answer::Spent(Receipt::Lines(log)) => Said::Spent(log.lines.len()),
        _ => Said::Wrong,
    }
}

pub(crate) fn learner(budget: u32, seed: u64) -> Worker {
    Worker {
        kind: Kind::Cdcl,
        budget,
        seed,
    }
}

// Returns a book of `stations` stations on `channels` channels from 14 on. `apart` decides which two may not share which channel.
pub(crate) fn packing<F: Fn(u32, u32, u8) -> bool>(
    alloc: Global,
    stations: u32,
    channels: u8,
    apart: F,
) -> Option<Book> {
    let mut domains = String::new(alloc);
    let mut rows = String::new(alloc);
    for s in 0..stations {
        domains
            .push_str(&format!(in alloc; "DOMAIN,{s}").ok()?)
            .ok()?;
        for c in 14..14u8.saturating_add(channels) {
            domains.push_str(&format!(in alloc; ",{c}").ok()?).ok()?;
            for t in s..stations {
                if t != s && apart(s, t, c) {
                    rows.push_str(&format!(in alloc; "CO,{c},{c},{s},{t}\n").ok()?)
                        .ok()?;
                }
            }
        }
        domains.push_str("\n").ok()?;
    }
    book(alloc, &domains, &rows)
}

// Returns a pseudorandom choice: whether two stations may not share a channel, with a probability of 9 in 16.
pub(crate) fn by_chance(seed: u64, station: u32, other: u32, c: u8) -> bool {
    let key = ((seed << 8 ^ station as u64) << 8 ^ other as u64) << 8 ^ c as u64;
    let once = (key ^ key >> 30).wrapping_mul(0xbf58_476d_1ce4_e5b9);
    let twice = (once ^ once >> 27).wrapping_mul(0x94d0_49bb_1331_11eb);
    (twice ^ twice >> 31) % 16 < 9
}
