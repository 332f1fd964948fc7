//! An accepted answer is kept unchanged, and a rejected one comes back unchanged.

use crate::auctions::answers::samples::{
    NOT_ONE, OUT_OF_TURN, THE_END, Text, four_stations, proof, receipt, task,
};
use crate::auctions::answers::tests::{ALL, checked};
use crate::samples::answers::{fit, walk};
use crate::samples::workers::learner;
use cert_types::answer::{Answer, CertifyFault, Receipt, Refutation};
use cert_types::certified::Certified;
use cert_types::certify::certify;
use rup_check::cursors::{Hints, Literals};
use rup_check::lines::Lines;
use std::alloc::{AllocError as NoMemory, Global};
use std::test::Fail;

fn same_lits(one: Literals<'_>, other: Literals<'_>) -> bool {
    let mut left = one;
    let mut others = other;
    while let Some(lit) = left.next() {
        if others.next() != Some(lit) {
            return false;
        }
    }
    others.next().is_none()
}

fn same_hints(one: Hints<'_>, other: Hints<'_>) -> bool {
    let mut left = one;
    let mut others = other;
    while let Some(hint) = left.next() {
        if others.next() != Some(hint) {
            return false;
        }
    }
    others.next().is_none()
}

fn same_lines(one: &Lines, other: &Lines) -> bool {
    if one.len() != other.len() {
        return false;
    }
    for i in 0..one.len() {
        if !same_lits(one.lits(i), other.lits(i)) || !same_hints(one.hints(i), other.hints(i)) {
            return false;
        }
    }
    true
}

fn same(one: &Answer, other: &Answer) -> bool {
    match (one, other) {
        (Answer::Fit(a), Answer::Fit(b)) => a.entries() == b.entries(),
        (
            Answer::Refuted(Refutation::Proof { subset: a, log: c }),
            Answer::Refuted(Refutation::Proof { subset: b, log: d }),
        ) => a.as_slice() == b.as_slice() && same_lines(&c.lines, &d.lines),
        (Answer::Refuted(Refutation::Dead(a)), Answer::Refuted(Refutation::Dead(b))) => a == b,
        (Answer::Spent(Receipt::Moves(a)), Answer::Spent(Receipt::Moves(b))) => {
            a.as_slice() == b.as_slice()
        }
        (Answer::Spent(Receipt::Lines(a)), Answer::Spent(Receipt::Lines(b))) => {
            same_lines(&a.lines, &b.lines)
        }
        _ => false,
    }
}

// Checks whether the answer is accepted and still equals this one.
fn holds(checked: Result<Certified, CertifyFault>, answer: &Answer) -> bool {
    match checked {
        Ok(certified) => {
            same(certified.answer(), answer) && same(&certified.into_answer(), answer)
        }
        Err(_) => false,
    }
}

// Checks whether the answer is rejected and comes back equal to this one.
fn hands_back(checked: Result<Certified, CertifyFault>, answer: &Answer) -> bool {
    match checked {
        Ok(_) => false,
        Err(fault) => same(&fault.answer, answer),
    }
}

// An answer to the test of stations 1 to 3, while 1 is on 15 and 2 on 14.
#[derive(Clone, Copy)]
enum Given {
    // A log over the clauses of the three stations.
    Proof(&'static [Text<'static>]),
    // A receipt of derived lines.
    Lines(&'static [Text<'static>]),
    // A channel for station 3, which is never a valid fit.
    Third(u8),
    // A receipt of one move of station 3.
    Moved(u8),
}

fn made(alloc: Global, given: Given) -> Result<Answer, NoMemory> {
    match given {
        Given::Proof(lines) => proof(alloc, ALL, lines),
        Given::Lines(lines) => receipt(alloc, lines),
        Given::Third(channel) => fit(alloc, &[(3, channel)]),
        Given::Moved(channel) => walk(alloc, &[(3, channel)]),
    }
}

// Checks whether this answer is accepted unchanged.
fn is_accepted_unchanged(alloc: Global, budget: u32, given: Given) -> Result<bool, NoMemory> {
    let again = made(alloc, given)?;
    let answer = made(alloc, given)?;
    Ok(holds(checked(alloc, budget, answer)?, &again))
}

// Checks whether this answer is rejected and comes back unchanged.
fn comes_back(alloc: Global, budget: u32, given: Given) -> Result<bool, NoMemory> {
    let again = made(alloc, given)?;
    let answer = made(alloc, given)?;
    Ok(hands_back(checked(alloc, budget, answer)?, &again))
}

#[test]
fn valid_answers_are_accepted(rt: HostRuntime) -> Result<(), Fail> {
    const ROWS: &[(u32, Given)] = &[
        (2, Given::Proof(&[NOT_ONE, THE_END])),
        (1, Given::Lines(&[NOT_ONE])),
    ];
    for (budget, given) in ROWS {
        assert!(rt; is_accepted_unchanged(rt.alloc(), *budget, *given)?);
    }
    Ok(())
}

#[test]
fn refused_answers_come_back(rt: HostRuntime) -> Result<(), Fail> {
    const ROWS: &[(u32, Given)] = &[
        (2, Given::Proof(&[NOT_ONE, OUT_OF_TURN])),
        (3, Given::Lines(&[NOT_ONE, OUT_OF_TURN])),
        (1, Given::Third(15)),
        (1, Given::Moved(15)),
    ];
    for (budget, given) in ROWS {
        assert!(rt; comes_back(rt.alloc(), *budget, *given)?);
    }
    Ok(())
}

// Checks whether a fit of stations 1 and 2 is accepted unchanged: 1 stays on 15, and 2 gets 14.
fn fits_over_two(alloc: Global) -> Result<bool, NoMemory> {
    let again = fit(alloc, &[(2, 14)])?;
    let answer = fit(alloc, &[(2, 14)])?;
    let book = four_stations(alloc)?;
    let two = task(alloc, &[1, 2], &[(1, 15)])?;
    Ok(holds(certify(alloc, &book, &two, &learner(1), answer), &again))
}

// Checks whether a log over the clauses of three stations is accepted for a set of four.
fn refutes_over_four(alloc: Global) -> Result<bool, NoMemory> {
    let again = proof(alloc, ALL, &[NOT_ONE, THE_END])?;
    let answer = proof(alloc, ALL, &[NOT_ONE, THE_END])?;
    let book = four_stations(alloc)?;
    let four = task(alloc, &[1, 2, 3, 4], &[(4, 14)])?;
    Ok(holds(certify(alloc, &book, &four, &learner(2), answer), &again))
}

#[test]
fn fit_and_proof_over_other_sets(rt: HostRuntime) -> Result<(), Fail> {
    assert!(rt; fits_over_two(rt.alloc())?);
    assert!(rt; refutes_over_four(rt.alloc())?);
    Ok(())
}
