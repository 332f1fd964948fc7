//! Literals and formulas for the tests, given by their DIMACS numbers.

use clause_db::list::ClauseList;
use clause_db::lit::Lit;
use std::alloc::{AllocError as NoMemory, Global};
use trail_prop::entry::TrailEntry;
use trail_prop::trail::Trail;

// Returns the literal of a DIMACS CNF number: its variable, or the negated variable.
pub(crate) fn lit(number: i64) -> Lit {
    Lit {
        var: number.unsigned_abs(),
        positive: number > 0,
    }
}

pub(crate) fn is_within(vars: u32, lit: Lit) -> bool {
    lit.var >= 1 && lit.var <= vars as u64
}

// Returns the clause of these literals, except those outside the variables.
pub(crate) fn clause(alloc: Global, vars: u32, numbers: &[i64]) -> Result<Vec<Lit>, NoMemory> {
    let mut lits = Vec::new(alloc);
    for number in numbers {
        let lit = lit(*number);
        if is_within(vars, lit) {
            lits.push(lit)?;
        }
    }
    Ok(lits)
}

// Returns the clauses of a DIMACS CNF file: the literals of each clause, ended by a 0.
pub(crate) fn formula(alloc: Global, vars: u32, numbers: &[i64]) -> Result<ClauseList, NoMemory> {
    let mut list = ClauseList::new(alloc, vars);
    let mut from = 0;
    for (at, number) in numbers.iter().enumerate() {
        if *number != 0 || from > at {
            continue;
        }
        list.add(&clause(alloc, vars, &numbers[from..at])?)?;
        from = at + 1;
    }
    Ok(list)
}

pub(crate) fn trail(alloc: Global, vars: u32, numbers: &[i64]) -> Result<Trail, NoMemory> {
    Trail::new(alloc, formula(alloc, vars, numbers)?)
}

pub(crate) fn add(alloc: Global, trail: &mut Trail, numbers: &[i64]) -> Result<(), NoMemory> {
    let lits = clause(alloc, trail.clauses().vars(), numbers)?;
    trail.add(&lits)
}

// Decides the literal. Returns whether it had no value before.
pub(crate) fn decide(trail: &mut Trail, number: i64) -> bool {
    let lit = lit(number);
    if !is_within(trail.clauses().vars(), lit) || trail.value(lit.var).is_some() {
        return false;
    }
    trail.decide(lit);
    true
}

// Returns the number of the clause that propagation found false, or 0.
pub(crate) fn propagate(trail: &mut Trail) -> Result<u64, NoMemory> {
    match trail.propagate()? {
        Some(conflict) => Ok(conflict.clause),
        None => Ok(0),
    }
}

// Jumps back. Returns whether the level existed and is now the current one.
pub(crate) fn backjump(trail: &mut Trail, level: u32) -> bool {
    if level > trail.level() {
        return false;
    }
    trail.backjump(level);
    trail.level() == level
}

pub(crate) fn is_entry(entry: &TrailEntry, number: i64, level: u32, reason: u64) -> bool {
    entry.lit == lit(number) && entry.level == level && entry.reason.unwrap_or(0) == reason
}

// Checks whether this is the entry of its variable.
pub(crate) fn has_entry(trail: &Trail, number: i64, level: u32, reason: u64) -> bool {
    let lit = lit(number);
    if !is_within(trail.clauses().vars(), lit) {
        return false;
    }
    match trail.entry_of(lit.var) {
        Some(entry) => is_entry(&entry, number, level, reason),
        None => false,
    }
}

// Checks whether these are the entries: each literal with its level and the number of its reason, or 0.
pub(crate) fn shows(trail: &Trail, wanted: &[(i64, u32, u64)]) -> bool {
    let entries = trail.entries();
    if entries.len() != wanted.len() {
        return false;
    }
    for (at, (number, level, reason)) in wanted.iter().enumerate() {
        if !is_entry(&entries[at], *number, *level, *reason) {
            return false;
        }
    }
    true
}

// Returns a trail where each variable from 1 on implies the next.
pub(crate) fn chain(alloc: Global, length: u32) -> Result<Trail, NoMemory> {
    let mut trail = trail(alloc, length, &[])?;
    for at in 1..length {
        let var = at as i64;
        add(alloc, &mut trail, &[-var, var + 1])?;
    }
    Ok(trail)
}
