//! Trails, step by step, each step with its expected result.

use crate::solvers::trails::samples::{
    add, backjump, chain, decide, has_entry, is_entry, propagate, shows, trail,
};
use std::alloc::{AllocError as NoMemory, Global};
use std::test::Fail;
use trail_prop::entry::TrailEntry;
use trail_prop::trail::Trail;

// A step on a trail.
#[derive(Clone, Copy)]
enum Move<'a> {
    // Decides a literal that has no value.
    Decide(i64),
    // Propagation finds the clause of this number false, or none if 0.
    Propagate(u64),
    // Propagation finds some clause false.
    Conflict,
    // Jumps back to a level that exists.
    Backjump(u32),
    Add(&'a [i64]),
    // These are the entries: each literal with its level and the number of its reason, or 0.
    Shows(&'a [(i64, u32, u64)]),
    Value(u64, Option<bool>),
    // Whether this is the entry of its variable.
    Entry(i64, u32, u64, bool),
}

// Takes the step and checks its result.
fn tells(alloc: Global, trail: &mut Trail, step: Move) -> Result<bool, NoMemory> {
    match step {
        Move::Decide(number) => Ok(decide(trail, number)),
        Move::Propagate(clause) => Ok(propagate(trail)? == clause),
        Move::Conflict => Ok(propagate(trail)? > 0),
        Move::Backjump(level) => Ok(backjump(trail, level)),
        Move::Add(numbers) => {
            add(alloc, trail, numbers)?;
            Ok(true)
        }
        Move::Shows(entries) => Ok(shows(trail, entries)),
        Move::Value(var, value) => Ok(trail.value(var) == value),
        Move::Entry(number, level, reason, is) => {
            Ok(has_entry(trail, number, level, reason) == is)
        }
    }
}

// Returns the index of the first step with an unexpected result.
fn first_step(
    alloc: Global,
    vars: u32,
    clauses: &[i64],
    steps: &[Move],
) -> Result<Option<usize>, NoMemory> {
    let mut trail = trail(alloc, vars, clauses)?;
    for (i, step) in steps.iter().enumerate() {
        if !tells(alloc, &mut trail, *step)? {
            return Ok(Some(i));
        }
    }
    Ok(None)
}

// A name, the number of variables, the clauses, each ended by a 0, and the steps.
type Told<'a> = (&'a str, u32, &'a [i64], &'a [Move<'a>]);

const TOLD: &[Told] = &[
    // Variable 2 * (s - 1) + c says that station s is on channel c. No two stations may share a channel.
    (
        "three stations on two channels",
        6,
        &[
            1, 2, 0, 3, 4, 0, 5, 6, 0, -1, -2, 0, -3, -4, 0, -5, -6, 0, -1, -3, 0, -1, -5, 0, -2,
            -4, 0, -2, -6, 0, -3, -5, 0, -4, -6, 0,
        ],
        &[
            Move::Decide(1),
            Move::Conflict,
            Move::Backjump(0),
            Move::Add(&[-1]),
            Move::Conflict,
        ],
    ),
    (
        "two stations on two channels",
        4,
        &[1, 2, 0, 3, 4, 0, -1, -2, 0, -3, -4, 0, -1, -3, 0, -2, -4, 0],
        &[
            Move::Decide(1),
            Move::Propagate(0),
            Move::Value(1, Some(true)),
            Move::Value(2, Some(false)),
            Move::Value(3, Some(false)),
            Move::Value(4, Some(true)),
            Move::Value(5, None),
        ],
    ),
    (
        "a literal alone at level 0",
        2,
        &[],
        &[
            Move::Add(&[2]),
            Move::Propagate(0),
            Move::Shows(&[(2, 0, 1)]),
        ],
    ),
    (
        "a literal alone at level 2",
        3,
        &[],
        &[
            Move::Decide(1),
            Move::Decide(3),
            Move::Add(&[2]),
            Move::Propagate(0),
            Move::Shows(&[(1, 1, 0), (3, 2, 0), (2, 2, 1)]),
            Move::Backjump(1),
            Move::Shows(&[(1, 1, 0)]),
            Move::Propagate(0),
            Move::Shows(&[(1, 1, 0), (2, 1, 1)]),
        ],
    ),
    (
        "an empty clause",
        1,
        &[],
        &[
            Move::Decide(1),
            Move::Add(&[]),
            Move::Propagate(1),
            Move::Backjump(0),
            Move::Propagate(1),
            Move::Shows(&[]),
        ],
    ),
    (
        "a clause added false",
        2,
        &[],
        &[
            Move::Decide(1),
            Move::Decide(2),
            Move::Propagate(0),
            Move::Add(&[-1, -2]),
            Move::Propagate(1),
            Move::Backjump(1),
            Move::Propagate(0),
            Move::Shows(&[(1, 1, 0), (-2, 1, 1)]),
        ],
    ),
    (
        "a clause added unit",
        3,
        &[],
        &[
            Move::Decide(1),
            Move::Decide(-3),
            Move::Propagate(0),
            Move::Add(&[-1, 2, 3]),
            Move::Propagate(0),
            Move::Shows(&[(1, 1, 0), (-3, 2, 0), (2, 2, 1)]),
            Move::Entry(2, 2, 1, true),
            Move::Entry(3, 2, 0, false),
        ],
    ),
    (
        "a clause added true",
        2,
        &[],
        &[
            Move::Decide(1),
            Move::Decide(-2),
            Move::Propagate(0),
            Move::Add(&[1, 2]),
            Move::Propagate(0),
            Move::Shows(&[(1, 1, 0), (-2, 2, 0)]),
            Move::Backjump(0),
            Move::Decide(-1),
            Move::Propagate(0),
            Move::Shows(&[(-1, 1, 0), (2, 1, 1)]),
        ],
    ),
    // A literal that occurs twice is counted twice: the clause can be false or true, but it never forces the literal.
    (
        "a literal twice in a clause",
        2,
        &[1, 1, 0, 2, -2, 0],
        &[
            Move::Propagate(0),
            Move::Shows(&[]),
            Move::Decide(-2),
            Move::Propagate(0),
            Move::Decide(-1),
            Move::Propagate(1),
        ],
    ),
];

// Returns the name of the first trail with an unexpected result, and the index of the step.
fn first_misread<'a>(alloc: Global, told: &[Told<'a>]) -> Result<Option<(&'a str, usize)>, NoMemory> {
    for (name, vars, clauses, steps) in told {
        if let Some(i) = first_step(alloc, *vars, clauses, steps)? {
            return Ok(Some((name, i)));
        }
    }
    Ok(None)
}

#[test]
fn steps_on_trails(rt: HostRuntime) -> Result<(), Fail> {
    assert_eq!(rt; first_misread(rt.alloc(), TOLD)?, None);
    Ok(())
}

// Checks that deciding the first literal of the chain forces all 1000 others, each by the clause before.
fn runs_forward(alloc: Global) -> Result<bool, NoMemory> {
    let mut trail = chain(alloc, 1001)?;
    if !decide(&mut trail, 1) || propagate(&mut trail)? != 0 {
        return Ok(false);
    }
    Ok(are_in_turn(trail.entries()))
}

fn are_in_turn(entries: &[TrailEntry]) -> bool {
    for (before, entry) in entries.iter().enumerate() {
        if !is_entry(entry, before as i64 + 1, 1, before as u64) {
            return false;
        }
    }
    entries.len() == 1001
}

// Checks that deciding the negated last literal forces the same chain backwards.
fn runs_backwards(alloc: Global) -> Result<bool, NoMemory> {
    let mut trail = chain(alloc, 1001)?;
    if !decide(&mut trail, -1001) || propagate(&mut trail)? != 0 {
        return Ok(false);
    }
    Ok(trail.entries().len() == 1001 && trail.value(1) == Some(false))
}

#[test]
fn a_chain_of_a_thousand(rt: HostRuntime) -> Result<(), Fail> {
    assert!(rt; runs_forward(rt.alloc())?);
    assert!(rt; runs_backwards(rt.alloc())?);
    Ok(())
}
