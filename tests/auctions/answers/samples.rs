//! A book of four stations, tasks over it, and answers to them.

use crate::samples::answers::lits;
use crate::samples::books::{all_apart, apart, book, on};
use cert_types::answer::{Answer, Receipt, Refutation};
use cert_types::task::Task;
use pack_defs::book::Book;
use pack_defs::channel_map::ChannelMap;
use pack_defs::items::Items;
use rup_check::line::Log;
use rup_check::lines::Lines;
use std::alloc::{AllocError as NoMemory, Global};

// A line of an LRAT text without its number: its literals, negative if negated, and its hints.
#[derive(Clone, Copy)]
pub(crate) struct Text<'a> {
    lits: &'a [i64],
    hints: &'a [u64],
}

// 13 -1 0 7 2 8 3 12 0
pub(crate) const NOT_ONE: Text<'static> = Text {
    lits: &[-1],
    hints: &[7, 2, 8, 3, 12],
};

// 14 0 13 1 9 2 10 3 11 0
pub(crate) const THE_END: Text<'static> = Text {
    lits: &[],
    hints: &[13, 1, 9, 2, 10, 3, 11],
};

// 13 -1 0 2 7 8 3 12 0: two literals of its first hint are unassigned
pub(crate) const OUT_OF_TURN: Text<'static> = Text {
    lits: &[-1],
    hints: &[2, 7, 8, 3, 12],
};

// 13 -2 0 9 2 10 3 11 0
pub(crate) const NOT_TWO: Text<'static> = Text {
    lits: &[-2],
    hints: &[9, 2, 10, 3, 11],
};

// 13 -1 5 0 7 2 3 12 0: `NOT_ONE` is a subset of this line
pub(crate) const WIDER: Text<'static> = Text {
    lits: &[-1, 5],
    hints: &[7, 2, 3, 12],
};

// 13 -1 -2 0 4 0: equals clause 4
pub(crate) const CLAUSE_AGAIN: Text<'static> = Text {
    lits: &[-1, -2],
    hints: &[4],
};

// 13 -1 -2 3 0 4 0: follows, but clause 4 is a subset of this line
pub(crate) const PADDED: Text<'static> = Text {
    lits: &[-1, -2, 3],
    hints: &[4],
};

// 14 -1 5 0 13 0: follows from the line `NOT_ONE` before it, but `NOT_ONE` is a subset of this line
pub(crate) const PADDED_LINE: Text<'static> = Text {
    lits: &[-1, 5],
    hints: &[13],
};

// 15 0 14 0: a second empty line
pub(crate) const EMPTY_AGAIN: Text<'static> = Text {
    lits: &[],
    hints: &[14],
};

pub(crate) fn log(alloc: Global, texts: &[Text]) -> Result<Log, NoMemory> {
    let mut lines = Lines::new(alloc);
    for text in texts {
        lines.push(&lits(alloc, text.lits)?, text.hints)?;
    }
    Ok(Log { lines })
}

pub(crate) fn proof(alloc: Global, subset: &[u32], texts: &[Text]) -> Result<Answer, NoMemory> {
    Ok(Answer::Refuted(Refutation::Proof {
        subset: Items::from_vec(Vec::from_slice(alloc, subset)?),
        log: log(alloc, texts)?,
    }))
}

pub(crate) fn receipt(alloc: Global, texts: &[Text]) -> Result<Answer, NoMemory> {
    Ok(Answer::Spent(Receipt::Lines(log(alloc, texts)?)))
}

// Returns the book of stations 1 to 4 on two channels. No two of stations 1 to 3 may share a channel; station 4 interferes with none.
pub(crate) fn four_stations(alloc: Global) -> Result<Book, NoMemory> {
    let domains = [
        on(alloc, 1, &[14, 15])?,
        on(alloc, 2, &[14, 15])?,
        on(alloc, 3, &[14, 15])?,
        on(alloc, 4, &[14, 15])?,
    ];
    let pairs = all_apart(alloc)?;
    book(alloc, &[1, 2, 3, 4], &domains, &pairs)
}

// Returns the book of stations 1, 2 and 4 on channel 14, and 3 on two channels. No two of stations 1 to 3 may share channel 14.
pub(crate) fn crowded_stations(alloc: Global) -> Result<Book, NoMemory> {
    let domains = [
        on(alloc, 1, &[14])?,
        on(alloc, 2, &[14])?,
        on(alloc, 3, &[14, 15])?,
        on(alloc, 4, &[14])?,
    ];
    let pairs = [apart(1, 2, 14), apart(1, 3, 14), apart(2, 3, 14)];
    book(alloc, &[1, 2, 3, 4], &domains, &pairs)
}

// Returns the test of station 3 with this set, at query 5 in round 2. The last map has these channels.
pub(crate) fn task(alloc: Global, set: &[u32], last: &[(u32, u8)]) -> Result<Task, NoMemory> {
    Ok(Task {
        number: 5,
        round: 2,
        station: Some(3),
        set: Items::from_vec(Vec::from_slice(alloc, set)?),
        last: ChannelMap::of(alloc, last)?,
    })
}
