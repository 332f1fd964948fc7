//! Propagation agrees with truth tables over pseudorandom formulas.

use crate::solvers::trails::samples::{add, backjump, decide, propagate, trail};
use clause_db::list::ClauseList;
use clause_db::lit::Lit;
use std::alloc::{AllocError as NoMemory, Global};
use std::test::Fail;
use trail_prop::entry::TrailEntry;
use trail_prop::plain::PlainTrail;
use trail_prop::trail::Trail;
use trail_prop::within::are_within;

// Returns the next number of a pseudorandom sequence (Knuth's multiplier).
fn next(seed: u64) -> u64 {
    seed.wrapping_mul(6364136223846793005)
        .wrapping_add(1442695040888963407)
}

// Returns a pseudorandom number below the limit.
fn pick(seed: u64, limit: u64) -> u64 {
    (seed >> 33) % limit
}

// Returns a pseudorandom literal of one of the variables 1 to 6.
fn pick_literal(seed: u64) -> i64 {
    let var = pick(seed, 6) as i64 + 1;
    if pick(next(seed), 2) == 0 { var } else { -var }
}

// Checks whether the literal is true under the assignment in `bits`.
fn holds(bits: u64, lit: Lit) -> bool {
    ((bits >> (lit.var % 64)) % 2 == 1) == lit.positive
}

fn clause_holds(bits: u64, clause: &[Lit]) -> bool {
    for lit in clause {
        if holds(bits, *lit) {
            return true;
        }
    }
    false
}

fn clauses_hold(bits: u64, clauses: &ClauseList) -> bool {
    for i in 0..clauses.len() {
        if !clause_holds(bits, clauses.get(i + 1)) {
            return false;
        }
    }
    true
}

fn decisions_hold(bits: u64, entries: &[TrailEntry]) -> bool {
    for entry in entries {
        if entry.reason.is_none() && !holds(bits, entry.lit) {
            return false;
        }
    }
    true
}

fn entries_hold(bits: u64, entries: &[TrailEntry]) -> bool {
    for entry in entries {
        if !holds(bits, entry.lit) {
            return false;
        }
    }
    true
}

// Checks all 64 assignments. Each one that satisfies the clauses and the decisions must satisfy all entries. If propagation found
// a false clause, no assignment may satisfy the clauses and the decisions.
fn is_sound(trail: &Trail, found: bool) -> bool {
    for half in 0..64 {
        let bits = 2 * half;
        if clauses_hold(bits, trail.clauses())
            && decisions_hold(bits, trail.entries())
            && (found || !entries_hold(bits, trail.entries()))
        {
            return false;
        }
    }
    true
}

// Returns how many literals of the clause are not false; a true literal counts as two.
fn still_open(trail: &Trail, clause: &[Lit]) -> u64 {
    let mut open: u64 = 0;
    for lit in clause {
        match trail.value(lit.var) {
            None => open = open.saturating_add(1),
            Some(value) if value == lit.positive => return 2,
            Some(_) => {}
        }
    }
    open
}

// Checks whether some clause has fewer than `limit` literals by that count.
fn has_fewer(trail: &Trail, limit: u64) -> bool {
    let clauses = trail.clauses();
    for i in 0..clauses.len() {
        if still_open(trail, clauses.get(i + 1)) < limit {
            return true;
        }
    }
    false
}

// Checks that propagation found a false clause exactly if one exists. Without one, no clause may be false or unit.
fn is_right(trail: &Trail, found: bool) -> bool {
    is_sound(trail, found) && has_fewer(trail, 1) == found && has_fewer(trail, 2) == found
}

// Adds a pseudorandom clause of one to three literals.
fn add_some(alloc: Global, trail: &mut Trail, seed: u64) -> Result<(), NoMemory> {
    let second = next(seed);
    let lits = [
        pick_literal(seed),
        pick_literal(second),
        pick_literal(next(second)),
    ];
    if pick(seed, 8) == 0 {
        add(alloc, trail, &lits[..1])
    } else if pick(seed, 2) == 0 {
        add(alloc, trail, &lits[..2])
    } else {
        add(alloc, trail, &lits)
    }
}

fn jump_back(trail: &mut Trail, seed: u64) -> bool {
    let level = pick(seed, trail.level() as u64 + 1) as u32;
    backjump(trail, level)
}

// Adds a clause, jumps back, or decides a literal.
fn step(alloc: Global, trail: &mut Trail, seed: u64) -> Result<(), NoMemory> {
    let kind = pick(seed, 4);
    let seed = next(seed);
    if kind == 0 {
        return add_some(alloc, trail, seed);
    }
    let _done = if kind == 1 {
        jump_back(trail, seed)
    } else {
        decide(trail, pick_literal(seed))
    };
    Ok(())
}

fn add_plain(plain: &mut PlainTrail, clause: &[Lit]) -> Result<(), NoMemory> {
    if !are_within(plain.clauses().vars(), clause) {
        return Ok(());
    }
    plain.add(clause)
}

fn decide_plain(plain: &mut PlainTrail, lit: Lit) {
    if are_within(plain.clauses().vars(), &[lit]) && plain.value(lit.var).is_none() {
        plain.decide(lit);
    }
}

// Returns a plain trail of the same clauses and decisions, with nothing propagated.
fn plain_of(alloc: Global, trail: &Trail) -> Result<PlainTrail, NoMemory> {
    let mut plain = PlainTrail::new(alloc, ClauseList::new(alloc, 6))?;
    for i in 0..trail.clauses().len() {
        add_plain(&mut plain, trail.clauses().get(i + 1))?;
    }
    for entry in trail.entries() {
        if entry.reason.is_none() {
            decide_plain(&mut plain, entry.lit);
        }
    }
    Ok(plain)
}

fn same_values(trail: &Trail, plain: &PlainTrail) -> bool {
    for var in 1..7 {
        if trail.value(var) != plain.value(var) {
            return false;
        }
    }
    true
}

// Checks whether a scan of all clauses gives the same result.
fn is_as_scanned(alloc: Global, trail: &Trail, found: bool) -> Result<bool, NoMemory> {
    let mut plain = plain_of(alloc, trail)?;
    let same = plain.propagate().is_some() == found;
    Ok(same && (found || same_values(trail, &plain)))
}

// Checks that propagation is right during a run of 40 steps. Every third step is not propagated.
fn goes_right(alloc: Global, start: u64) -> Result<bool, NoMemory> {
    let mut trail = trail(alloc, 6, &[])?;
    let mut seed = start;
    for at in 0..40 {
        seed = next(seed);
        step(alloc, &mut trail, seed)?;
        if at % 3 == 0 {
            continue;
        }
        let found = propagate(&mut trail)? > 0;
        if !is_right(&trail, found) || !is_as_scanned(alloc, &trail, found)? {
            return Ok(false);
        }
    }
    Ok(true)
}

#[test]
fn agrees_with_every_assignment_and_with_a_scan(rt: HostRuntime) -> Result<(), Fail> {
    for seed in 0..300 {
        assert!(rt; goes_right(rt.alloc(), seed)?, "at {seed}");
    }
    Ok(())
}
