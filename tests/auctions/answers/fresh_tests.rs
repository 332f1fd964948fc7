//! `first_stale` agrees with a scan of all earlier lines, over random clauses and lines.

use crate::samples::answers::lits;
use cert_types::fresh::first_stale;
use clause_db::list::ClauseList;
use clause_db::lit::Lit;
use rup_check::lines::Lines;
use std::alloc::{AllocError as NoMemory, Global};
use std::test::Fail;

// Returns the next pseudorandom number (Knuth's multiplier).
pub(crate) fn next(seed: u64) -> u64 {
    seed.wrapping_mul(6364136223846793005)
        .wrapping_add(1442695040888963407)
}

// Returns a number below the limit, from the upper bits of the seed.
pub(crate) fn pick(seed: u64, limit: u64) -> u64 {
    (seed >> 33) % limit
}

// Returns at most four literals of the variables 0 to 5; the clause list has variables 1 to 4. A literal may repeat.
fn literals(alloc: Global, start: u64) -> Result<Vec<Lit>, NoMemory> {
    let mut lits = Vec::new(alloc);
    // Leaves the sequence of `start`, whose later numbers seed the other clauses and lines.
    let mut seed = next(start ^ 0x5555_5555_5555_5555);
    for _ in 0..pick(seed, 5) {
        seed = next(seed);
        let kind = pick(seed, 12);
        lits.push(Lit {
            var: kind / 2,
            positive: kind % 2 == 1,
        })?;
    }
    Ok(lits)
}

fn clauses(alloc: Global, start: u64) -> Result<ClauseList, NoMemory> {
    let mut clauses = ClauseList::new(alloc, 4);
    let mut seed = next(start);
    for _ in 0..pick(seed, 5) {
        seed = next(seed);
        clauses.add(&literals(alloc, seed)?)?;
    }
    Ok(clauses)
}

// Returns the literals of each line.
fn lines(alloc: Global, start: u64) -> Result<Vec<Vec<Lit>>, NoMemory> {
    let mut lines = Vec::new(alloc);
    let mut seed = next(start);
    for _ in 0..pick(seed, 9) {
        seed = next(seed);
        lines.push(literals(alloc, seed)?)?;
    }
    Ok(lines)
}

// Packs lines of these literals, without hints.
fn packed(alloc: Global, lines: &[Vec<Lit>]) -> Result<Lines, NoMemory> {
    let mut packed = Lines::new(alloc);
    for lits in lines {
        packed.push(lits, &[])?;
    }
    Ok(packed)
}

fn is_subset(clause: &[Lit], lits: &[Lit]) -> bool {
    for lit in clause {
        if !lits.contains(lit) {
            return false;
        }
    }
    true
}

// Checks whether a clause or one of these lines is a subset of the literals.
fn has_subset(clauses: &ClauseList, lines: &[Vec<Lit>], lits: &[Lit]) -> bool {
    for i in 0..clauses.len() {
        if is_subset(clauses.get(i + 1), lits) {
            return true;
        }
    }
    for line in lines {
        if is_subset(line, lits) {
            return true;
        }
    }
    false
}

// Scans for the first line, from 1, that has a clause or an earlier line as a subset.
fn first_by_scan(clauses: &ClauseList, lines: &[Vec<Lit>]) -> Option<u64> {
    for (i, line) in lines.iter().enumerate() {
        if has_subset(clauses, &lines[..i], line) {
            return Some(i as u64 + 1);
        }
    }
    None
}

// Returns the first line that is not new, or 0 if every line is new. Returns 1000 if the scan disagrees.
fn agreed(alloc: Global, seed: u64) -> Result<u64, NoMemory> {
    let clauses = clauses(alloc, seed)?;
    let lines = lines(alloc, seed + 1_000_000)?;
    let by_scan = first_by_scan(&clauses, &lines);
    if first_stale(alloc, &clauses, &packed(alloc, &lines)?)? != by_scan {
        return Ok(1000);
    }
    Ok(by_scan.unwrap_or(0))
}

#[test]
fn agrees_with_a_scan(rt: HostRuntime) -> Result<(), Fail> {
    let mut seen = [false; 6];
    for seed in 0..2000 {
        let place = agreed(rt.alloc(), seed)?;
        assert!(rt; place < 1000, "at {seed}");
        if place < 6 {
            seen[place as usize] = true;
        }
    }
    // Index 0 means that every line is new; 1 to 5 are the first five lines.
    assert_eq!(rt; seen, [true; 6]);
    Ok(())
}

// Returns a clause list over the variables 1 to 70.
fn clauses_of(alloc: Global, rows: &[&[i64]]) -> Result<ClauseList, NoMemory> {
    let mut clauses = ClauseList::new(alloc, 70);
    for row in rows {
        clauses.add(&lits(alloc, *row)?)?;
    }
    Ok(clauses)
}

fn lines_of(alloc: Global, rows: &[&[i64]]) -> Result<Vec<Vec<Lit>>, NoMemory> {
    let mut lines = Vec::new(alloc);
    for row in rows {
        lines.push(lits(alloc, *row)?)?;
    }
    Ok(lines)
}

// Returns the index of the first row for which `first_stale` or the scan finds another line than expected.
fn wrong_row(
    alloc: Global,
    rows: &[(&[&[i64]], &[&[i64]], Option<u64>)],
) -> Result<Option<usize>, NoMemory> {
    for (i, (clauses, lines, want)) in rows.iter().enumerate() {
        let clauses = clauses_of(alloc, *clauses)?;
        let lines = lines_of(alloc, *lines)?;
        if first_stale(alloc, &clauses, &packed(alloc, &lines)?)? != *want
            || first_by_scan(&clauses, &lines) != *want
        {
            return Ok(Some(i));
        }
    }
    Ok(None)
}

#[test]
fn clause_index_places(rt: HostRuntime) -> Result<(), Fail> {
    const ROWS: &[(&[&[i64]], &[&[i64]], Option<u64>)] = &[
        // A clause has a literal that is in no line. It is alone, or before a clause that is a subset of a line.
        (&[&[1, 9]], &[&[1, 2], &[2, 3]], None),
        (&[&[1, 9], &[2, 3]], &[&[1, 2], &[1, 2, 3]], Some(2)),
        // The variables 1 and 65 set the same bit.
        (&[&[65, 2, 3]], &[&[1, 2, 3], &[65, 4]], None),
        (&[&[65, 2, 3]], &[&[1, 2, 3], &[65, 4, 3, 2]], Some(2)),
        (&[], &[&[65, 2, 3], &[1, 2, 3, 4], &[-65, 2, 3]], None),
        // The clause's rarest literal is in no line before the stale one.
        (
            &[&[7, 1, 2]],
            &[&[1, 2, 3], &[1, 2, 4], &[5, 1, 2, 7]],
            Some(3),
        ),
        (&[&[-7, 1]], &[&[1, 2], &[7, 1], &[1, -7, 3]], Some(3)),
    ];
    assert_eq!(rt; wrong_row(rt.alloc(), ROWS)?, None);
    Ok(())
}
