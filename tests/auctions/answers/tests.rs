//! `certify` accepts valid answers of each kind and reports the first error of the others.

use crate::auctions::answers::samples::{
    EMPTY_AGAIN, NOT_ONE, OUT_OF_TURN, THE_END, Text, crowded_stations, four_stations, log, proof,
    receipt, task,
};
use crate::samples::answers::{fit, walk};
use crate::samples::books::apart;
use crate::samples::workers::{learner, walker};
use cert_types::answer::{Answer, CertifyFault, CertifyWhy, Place, Refutation};
use cert_types::certified::Certified;
use cert_types::certify::certify;
use cert_types::outside::certify_outside;
use cert_types::start::start_map;
use pack_defs::pair::Pair;
use rup_check::line::Log;
use rup_check::lines::Lines;
use std::alloc::{AllocError as NoMemory, Global};
use std::test::Fail;

pub(crate) const ALL: &[u32] = &[1, 2, 3];

const COUNT: Option<Place> = Some(Place::Count);

const SUBSET: Option<Place> = Some(Place::Subset);

const FIRST: Option<Place> = Some(Place::LineAt(1));

const SECOND: Option<Place> = Some(Place::LineAt(2));

// Checks an answer to the test of stations 1 to 3, while 1 is on 15 and 2 on 14.
pub(crate) fn checked(
    alloc: Global,
    budget: u32,
    answer: Answer,
) -> Result<Result<Certified, CertifyFault>, NoMemory> {
    let book = four_stations(alloc)?;
    let task = task(alloc, &[1, 2, 3], &[(1, 15), (2, 14)])?;
    Ok(certify(alloc, &book, &task, &learner(budget), answer))
}

// Returns the place of the answer's first error.
pub(crate) fn fault(alloc: Global, budget: u32, answer: Answer) -> Result<Option<Place>, NoMemory> {
    place(checked(alloc, budget, answer)?)
}

// Returns the place of a rejection, or `None` if the answer is accepted.
pub(crate) fn place(checked: Result<Certified, CertifyFault>) -> Result<Option<Place>, NoMemory> {
    match checked {
        Ok(_) => Ok(None),
        Err(fault) => match fault.why {
            CertifyWhy::Rejected(place) => Ok(Some(place)),
            CertifyWhy::NoMemory => Err(NoMemory),
        },
    }
}

// Returns the index of the first case whose proof has another result than expected. A case has a budget, a subset and the lines of a log.
fn wrong_proof(
    alloc: Global,
    cases: &[(u32, &[u32], &[Text], Option<Place>)],
) -> Result<Option<usize>, NoMemory> {
    for (i, (budget, subset, lines, want)) in cases.iter().enumerate() {
        if fault(alloc, *budget, proof(alloc, subset, lines)?)? != *want {
            return Ok(Some(i));
        }
    }
    Ok(None)
}

#[test]
fn faults_of_proofs(rt: HostRuntime) -> Result<(), Fail> {
    const CASES: &[(u32, &[u32], &[Text], Option<Place>)] = &[
        // The number of lines is invalid.
        (1000, ALL, &[], COUNT),
        (1, ALL, &[NOT_ONE, THE_END], COUNT),
        (2, ALL, &[NOT_ONE, THE_END], None),
        // The subset is out of order, repeats a station, or has a station that is not tested. In the last case its clauses have other
        // numbers.
        (2, &[1, 3, 2], &[NOT_ONE, THE_END], SUBSET),
        (2, &[1, 1, 2], &[NOT_ONE, THE_END], SUBSET),
        (2, &[1, 2, 4], &[NOT_ONE, THE_END], SUBSET),
        (2, &[1, 2], &[NOT_ONE, THE_END], FIRST),
        // A line does not follow, the last line is not empty, or an empty line is not the last.
        (9, ALL, &[OUT_OF_TURN, THE_END], FIRST),
        (9, ALL, &[NOT_ONE, OUT_OF_TURN, THE_END], SECOND),
        (9, ALL, &[NOT_ONE], FIRST),
        (9, ALL, &[NOT_ONE, THE_END, EMPTY_AGAIN], SECOND),
    ];
    assert_eq!(rt; wrong_proof(rt.alloc(), CASES)?, None);
    Ok(())
}

// Returns the place of the first error of an outside log, for the test of stations 1 to 3. Returns `Place::Kind` if the log comes back with
// another length.
fn outside_fault(alloc: Global, log: Log) -> Result<Option<Place>, NoMemory> {
    let book = four_stations(alloc)?;
    let task = task(alloc, &[1, 2, 3], &[(1, 15), (2, 14)])?;
    let count = log.lines.len();
    match certify_outside(alloc, &book, &task, log) {
        Ok(_) => Ok(None),
        Err(fault) => match fault.why {
            CertifyWhy::Rejected(place) if fault.log.lines.len() == count => Ok(Some(place)),
            CertifyWhy::Rejected(_) => Ok(Some(Place::Kind)),
            CertifyWhy::NoMemory => Err(NoMemory),
        },
    }
}

#[test]
fn faults_of_logs_from_outside(rt: HostRuntime) -> Result<(), Fail> {
    const CASES: &[(&[Text], Option<Place>)] = &[
        (&[NOT_ONE, THE_END], None),
        (&[], COUNT),
        // A line does not follow, the last line is not empty, or an empty line is not the last.
        (&[OUT_OF_TURN, THE_END], FIRST),
        (&[THE_END], FIRST),
        (&[NOT_ONE], FIRST),
        (&[NOT_ONE, OUT_OF_TURN], SECOND),
        (&[NOT_ONE, THE_END, EMPTY_AGAIN], SECOND),
    ];
    for (lines, want) in CASES {
        assert_eq!(rt; outside_fault(rt.alloc(), log(rt.alloc(), lines)?)?, *want);
    }
    // An outside log has at most 1,000,000 lines. With that many, the first one does not follow.
    for (count, want) in [(1_000_001, COUNT), (1_000_000, FIRST)] {
        let mut lines = Lines::new(rt.alloc());
        for _ in 0..count {
            lines.push(&[], &[])?;
        }
        assert_eq!(rt; outside_fault(rt.alloc(), Log { lines })?, want);
    }
    Ok(())
}

#[test]
fn faults_of_fits(rt: HostRuntime) -> Result<(), Fail> {
    let cases: [(&[(u32, u8)], Place); 6] = [
        (&[], Place::Station(3)),
        (&[(3, 15), (4, 14)], Place::Station(4)),
        (&[(3, 16)], Place::Station(3)),
        (&[(3, 15)], Place::PairOf(apart(1, 3, 15))),
        // Two errors each: station 3 is missing and 4 is not tested; station 1 is off its domain and a pair is violated.
        (&[(4, 14)], Place::Station(3)),
        (&[(1, 16), (3, 14)], Place::Station(1)),
    ];
    for (delta, want) in cases {
        let answer = fit(rt.alloc(), delta)?;
        assert_eq!(rt; fault(rt.alloc(), 1, answer)?, Some(want));
    }
    Ok(())
}

#[test]
fn first_of_two_faults(rt: HostRuntime) -> Result<(), Fail> {
    const CASES: &[(u32, &[u32], &[Text], Option<Place>)] = &[
        // Too many lines and an invalid subset; then an invalid subset and a line that does not follow.
        (1, &[4, 5], &[OUT_OF_TURN, THE_END], Some(Place::Count)),
        (2, &[4, 5], &[OUT_OF_TURN, THE_END], Some(Place::Subset)),
        // A line that does not follow and an empty line that is not the last, in both orders.
        (3, ALL, &[OUT_OF_TURN, EMPTY_AGAIN, NOT_ONE], FIRST),
        (3, ALL, &[NOT_ONE, THE_END, OUT_OF_TURN], SECOND),
    ];
    assert_eq!(rt; wrong_proof(rt.alloc(), CASES)?, None);
    Ok(())
}

// Returns the place of the first error of a walker's answer to the test of stations 1 to 3, with an empty last map.
fn walkers_fault(alloc: Global, budget: u32, answer: Answer) -> Result<Option<Place>, NoMemory> {
    let book = four_stations(alloc)?;
    let task = task(alloc, &[1, 2, 3], &[])?;
    place(certify(alloc, &book, &task, &walker(budget), answer))
}

// Returns the index of the first case whose walk has another result than expected.
fn wrong_walk(
    alloc: Global,
    cases: &[(u32, &[(u32, u8)], Option<Place>)],
) -> Result<Option<usize>, NoMemory> {
    for (i, (budget, moves, want)) in cases.iter().enumerate() {
        if walkers_fault(alloc, *budget, walk(alloc, moves)?)? != *want {
            return Ok(Some(i));
        }
    }
    Ok(None)
}

#[test]
fn faults_of_walks(rt: HostRuntime) -> Result<(), Fail> {
    const CASES: &[(u32, &[(u32, u8)], Option<Place>)] = &[
        // Valid walks from 1, 2 and 3 on 14. First 2 and 3 still share a channel, then 1 and 2 do.
        (1, &[(1, 15)], None),
        (2, &[(1, 15), (2, 15)], None),
        // The number of moves differs from the budget.
        (1, &[], COUNT),
        (2, &[(1, 15)], COUNT),
        (1, &[(1, 15), (2, 15)], COUNT),
        // A move to the station's own channel, to one off its domain, or of a station in no violated pair.
        (1, &[(1, 14)], Some(Place::MoveAt(1))),
        (1, &[(1, 16)], Some(Place::MoveAt(1))),
        (1, &[(4, 15)], Some(Place::MoveAt(1))),
        (1, &[(9, 15)], Some(Place::MoveAt(1))),
        (2, &[(1, 15), (1, 14)], Some(Place::MoveAt(2))),
        (3, &[(1, 15), (2, 15), (3, 15)], Some(Place::MoveAt(3))),
        // Both moves are invalid; the first is reported.
        (2, &[(1, 16), (2, 14)], Some(Place::MoveAt(1))),
    ];
    assert_eq!(rt; wrong_walk(rt.alloc(), CASES)?, None);
    Ok(())
}

// Returns the place of the first error of a walk of one move over stations 1 and 2, from this last map.
fn move_fault(alloc: Global, last: &[(u32, u8)], x: (u32, u8)) -> Result<Option<Place>, NoMemory> {
    let book = four_stations(alloc)?;
    let task = task(alloc, &[1, 2], last)?;
    let answer = walk(alloc, &[x])?;
    place(certify(alloc, &book, &task, &walker(1), answer))
}

#[test]
fn last_map_without_violations(rt: HostRuntime) -> Result<(), Fail> {
    let first = Some(Place::MoveAt(1));
    // The first walk leaves no violation; the second starts without one.
    assert_eq!(rt; move_fault(rt.alloc(), &[], (1, 15))?, first);
    assert_eq!(rt;
        move_fault(rt.alloc(), &[(1, 15), (2, 14)], (1, 14))?,
        first
    );
    Ok(())
}

// Checks whether a walk over stations 1, 2 and 9 starts from these entries. Station 9 has no channel.
fn starts_from(alloc: Global, last: &[(u32, u8)], entries: &[(u32, u8)]) -> Result<bool, NoMemory> {
    let book = four_stations(alloc)?;
    let task = task(alloc, &[1, 2, 9], last)?;
    Ok(start_map(alloc, &book, &task)?.as_slice() == entries)
}

#[test]
fn start_map_of_a_task(rt: HostRuntime) -> Result<(), Fail> {
    assert!(rt; starts_from(rt.alloc(), &[], &[(1, 14), (2, 14), (9, 0)])?);
    assert!(rt; starts_from(rt.alloc(), &[(2, 15)], &[(1, 14), (2, 15), (9, 0)])?);
    Ok(())
}

// Checks whether moves of a learner, and lines and a proof of a walker, are all rejected as the wrong kind.
fn are_of_other_kind(alloc: Global, budget: u32) -> Result<bool, NoMemory> {
    let kind = Some(Place::Kind);
    let moves = fault(alloc, budget, walk(alloc, &[(3, 15)])?)?;
    let spent = walkers_fault(alloc, budget, receipt(alloc, &[NOT_ONE])?)?;
    let proved = walkers_fault(
        alloc,
        budget,
        proof(alloc, &[1, 2, 3], &[NOT_ONE, THE_END])?,
    )?;
    Ok(moves == kind && spent == kind && proved == kind)
}

#[test]
fn answers_of_the_other_kind(rt: HostRuntime) -> Result<(), Fail> {
    // The budget equals the number of moves or of receipt lines (1), of proof lines (2), or neither (3).
    assert!(rt; are_of_other_kind(rt.alloc(), 1)?);
    assert!(rt; are_of_other_kind(rt.alloc(), 2)?);
    assert!(rt; are_of_other_kind(rt.alloc(), 3)?);
    Ok(())
}

// Returns the place of the first error of a dead pair, for a test of some of the crowded stations.
fn dead_fault(alloc: Global, set: &[u32], pair: Pair) -> Result<Option<Place>, NoMemory> {
    let book = crowded_stations(alloc)?;
    let task = task(alloc, set, &[])?;
    let answer = Answer::Refuted(Refutation::Dead(pair));
    place(certify(alloc, &book, &task, &walker(1), answer))
}

#[test]
fn faults_of_dead_pairs(rt: HostRuntime) -> Result<(), Fail> {
    let alloc = rt.alloc();
    let dead = apart(1, 2, 14);
    assert_eq!(rt; dead_fault(alloc, &[1, 2], dead)?, None);
    assert_eq!(rt; dead_fault(alloc, &[1, 2, 3, 4], dead)?, None);
    assert_eq!(rt;
        dead_fault(alloc, &[1, 3], dead)?,
        Some(Place::PairOf(dead))
    );
    assert_eq!(rt;
        dead_fault(alloc, &[2, 3], dead)?,
        Some(Place::PairOf(dead))
    );
    // The first two pairs are not in the book; in the last two, station 3 has two channels.
    for pair in [
        apart(1, 4, 14),
        apart(2, 1, 14),
        apart(1, 3, 14),
        apart(2, 3, 14),
    ] {
        assert_eq!(rt;
            dead_fault(alloc, &[1, 2, 3, 4], pair)?,
            Some(Place::PairOf(pair))
        );
    }
    Ok(())
}
