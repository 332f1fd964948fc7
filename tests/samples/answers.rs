//! Answers to the queries of stations 1 to 3, and the lines of the log that refutes their set.

use cert_types::answer::{Answer, Receipt, Refutation};
use clause_db::lit::Lit;
use pack_defs::channel_map::ChannelMap;
use pack_defs::items::Items;
use pack_defs::pair::Pair;
use rup_check::line::Log;
use rup_check::lines::Lines;
use std::alloc::{AllocError as NoMemory, Global};

/// A worker's answer.
#[derive(Clone, Copy)]
pub enum Given {
    /// A fit without channels.
    FitNothing,
    /// A fit with a channel for one station.
    Fit(u32, u8),
    /// A fit with these channels for stations 1 and 2.
    FitTwo(u8, u8),
    /// A refutation of the set of stations 1 to 3, by a log of two lines.
    Refuted,
    /// A refutation by this pair, which need not be dead.
    Dead(Pair),
    /// A refutation over no station, by an empty line without hints.
    EmptyProof,
    /// A receipt of one line.
    Spent,
    /// A receipt of one move, of a station to a channel.
    Moved(u32, u8),
}

/// Four fits and a refutation of the last set: the answers to the queries of stations 1 to 3 with values of 50, 70 and 10 cents.
pub const FOUR_FITS: &[Given] = &[
    Given::Fit(1, 14),
    Given::Fit(2, 14),
    Given::Fit(3, 15),
    Given::Fit(1, 15),
    Given::Refuted,
];

/// Three fits and a refutation of the last set: the answers to the queries if station 2 is on air from the start.
pub const THREE_FITS: &[Given] = &[
    Given::Fit(2, 14),
    Given::Fit(1, 15),
    Given::Fit(3, 15),
    Given::Refuted,
];

/// Returns the literals with these numbers; a negative number is a negated variable.
pub fn lits(alloc: Global, numbers: &[i64]) -> Result<Vec<Lit>, NoMemory> {
    let mut lits = Vec::new(alloc);
    for number in numbers {
        lits.push(Lit {
            var: number.unsigned_abs(),
            positive: *number > 0,
        })?;
    }
    Ok(lits)
}

/// Returns the first line of the log: `13 -1 0 7 2 8 3 12 0`.
pub fn one_line(alloc: Global) -> Result<Log, NoMemory> {
    let lit = Lit {
        var: 1,
        positive: false,
    };
    let mut lines = Lines::new(alloc);
    lines.push(&[lit], &[7, 2, 8, 3, 12])?;
    Ok(Log { lines })
}

/// Returns the complete log: the first line and `14 0 13 1 9 2 10 3 11 0`.
pub fn two_lines(alloc: Global) -> Result<Log, NoMemory> {
    let mut log = one_line(alloc)?;
    log.lines.push(&[], &[13, 1, 9, 2, 10, 3, 11])?;
    Ok(log)
}

/// Returns the refutation of stations 1 to 3 by the two lines.
pub fn refutation(alloc: Global) -> Result<Refutation, NoMemory> {
    Ok(Refutation::Proof {
        subset: Items::from_vec(Vec::from_slice(alloc, &[1, 2, 3])?),
        log: two_lines(alloc)?,
    })
}

/// Returns a fit with these channels.
pub fn fit(alloc: Global, delta: &[(u32, u8)]) -> Result<Answer, NoMemory> {
    Ok(Answer::Fit(ChannelMap::of(alloc, delta)?))
}

/// Returns a receipt of these moves.
pub fn walk(alloc: Global, moves: &[(u32, u8)]) -> Result<Answer, NoMemory> {
    let moves = Items::from_vec(Vec::from_slice(alloc, moves)?);
    Ok(Answer::Spent(Receipt::Moves(moves)))
}

fn refuted(alloc: Global) -> Result<Answer, NoMemory> {
    Ok(Answer::Refuted(refutation(alloc)?))
}

fn spent(alloc: Global) -> Result<Answer, NoMemory> {
    Ok(Answer::Spent(Receipt::Lines(one_line(alloc)?)))
}

fn empty_proof(alloc: Global) -> Result<Answer, NoMemory> {
    let mut lines = Lines::new(alloc);
    lines.push(&[], &[])?;
    let subset = Items::from_vec(Vec::new(alloc));
    let log = Log { lines };
    Ok(Answer::Refuted(Refutation::Proof { subset, log }))
}

/// Returns the answer that `given` describes.
pub fn answer(alloc: Global, given: Given) -> Result<Answer, NoMemory> {
    match given {
        Given::FitNothing => fit(alloc, &[]),
        Given::Fit(station, channel) => fit(alloc, &[(station, channel)]),
        Given::FitTwo(first, second) => fit(alloc, &[(1, first), (2, second)]),
        Given::Refuted => refuted(alloc),
        Given::Dead(pair) => Ok(Answer::Refuted(Refutation::Dead(pair))),
        Given::EmptyProof => empty_proof(alloc),
        Given::Spent => spent(alloc),
        Given::Moved(station, channel) => walk(alloc, &[(station, channel)]),
    }
}
