//! Tests of the check of lines and logs, over the formula of three stations.

use clause_db::list::ClauseList;
use clause_db::lit::Lit;
use pack_defs::items::Items;
use rup_check::check::{check_line, check_log};
use rup_check::line::{Line, Log};
use rup_check::lines::Lines;
use rup_check::{LineErr, LogErr};
use std::alloc::{AllocError as NoMemory, Global};
use std::test::Fail;

// Returns literals by DIMACS numbers; a negative number is a negated literal.
fn lits(alloc: Global, numbers: &[i64]) -> Result<Vec<Lit>, NoMemory> {
    let mut lits = Vec::new(alloc);
    for number in numbers {
        lits.push(Lit {
            var: number.unsigned_abs(),
            positive: *number > 0,
        })?;
    }
    Ok(lits)
}

fn line(alloc: Global, numbers: &[i64], hints: &[u64]) -> Result<Line, NoMemory> {
    Ok(Line {
        lits: Items::from_vec(lits(alloc, numbers)?),
        hints: Items::from_vec(Vec::from_slice(alloc, hints)?),
    })
}

fn log(alloc: Global, lines: &[Line]) -> Result<Log, NoMemory> {
    let mut packed = Lines::new(alloc);
    for line in lines {
        packed.push(line.lits.as_slice(), line.hints.as_slice())?;
    }
    Ok(Log { lines: packed })
}

// Returns the formula of three stations on two channels; no two stations may share a channel.
fn three_stations(alloc: Global) -> Result<ClauseList, NoMemory> {
    let mut clauses = ClauseList::new(alloc, 6);
    for two in [
        [1, 2],
        [3, 4],
        [5, 6],
        [-1, -2],
        [-3, -4],
        [-5, -6],
        [-1, -3],
        [-1, -5],
        [-2, -4],
        [-2, -6],
        [-3, -5],
        [-4, -6],
    ] {
        clauses.add(&lits(alloc, &two)?)?;
    }
    Ok(clauses)
}

// Returns what `check_line` answers over these clauses.
fn answer(
    alloc: Global,
    clauses: &ClauseList,
    numbers: &[i64],
    hints: &[u64],
) -> Result<Result<(), LineErr>, NoMemory> {
    let line = line(alloc, numbers, hints)?;
    Ok(check_line(alloc, clauses, &line))
}

#[test]
fn lines_that_follow(rt: HostRuntime) -> Result<(), Fail> {
    let alloc = rt.alloc();
    let clauses = three_stations(alloc)?;
    assert_eq!(rt; answer(alloc, &clauses, &[-1], &[7, 2, 8, 3, 12])?, Ok(()));
    assert_eq!(rt; answer(alloc, &clauses, &[-1, -2, 3], &[4])?, Ok(()));
    assert_eq!(rt; answer(alloc, &clauses, &[-5, -6], &[6])?, Ok(()));
    Ok(())
}

#[test]
fn bad_literals_before_hints(rt: HostRuntime) -> Result<(), Fail> {
    let alloc = rt.alloc();
    let clauses = three_stations(alloc)?;
    let bad = Err(LineErr::BadLits);
    assert_eq!(rt; answer(alloc, &clauses, &[0], &[4])?, bad);
    assert_eq!(rt; answer(alloc, &clauses, &[7], &[4])?, bad);
    assert_eq!(rt; answer(alloc, &clauses, &[-7], &[4])?, bad);
    assert_eq!(rt; answer(alloc, &clauses, &[i64::MIN], &[4])?, bad);
    assert_eq!(rt; answer(alloc, &clauses, &[-1, -2, -1], &[4])?, bad);
    assert_eq!(rt; answer(alloc, &clauses, &[-1, -2, 1], &[99])?, bad);
    Ok(())
}

#[test]
fn invalid_first_hint(rt: HostRuntime) -> Result<(), Fail> {
    let alloc = rt.alloc();
    let clauses = three_stations(alloc)?;
    let two_open = answer(alloc, &clauses, &[-1], &[2, 7, 8, 3, 12])?;
    assert_eq!(rt; two_open, Err(LineErr::NotUnit { hint: 1 }));
    let true_already = answer(alloc, &clauses, &[-1], &[7, 7, 12])?;
    assert_eq!(rt; true_already, Err(LineErr::NotUnit { hint: 2 }));
    let after_the_end = answer(alloc, &clauses, &[-1], &[7, 2, 8, 3, 12, 11])?;
    assert_eq!(rt; after_the_end, Err(LineErr::NotUnit { hint: 5 }));
    let zero_lit = answer(alloc, &clauses, &[-1], &[0])?;
    assert_eq!(rt; zero_lit, Err(LineErr::NoSuchClause { hint: 1 }));
    let itself = answer(alloc, &clauses, &[-1], &[7, 13])?;
    assert_eq!(rt; itself, Err(LineErr::NoSuchClause { hint: 2 }));
    let not_false = answer(alloc, &clauses, &[-1], &[7])?;
    assert_eq!(rt; not_false, Err(LineErr::NotFalsified));
    let no_hint = answer(alloc, &clauses, &[-1], &[])?;
    assert_eq!(rt; no_hint, Err(LineErr::NotFalsified));
    Ok(())
}

#[test]
fn refutation_of_two_lines(rt: HostRuntime) -> Result<(), Fail> {
    let alloc = rt.alloc();
    let clauses = three_stations(alloc)?;
    let mut lines = Vec::new(alloc);
    lines.push(line(alloc, &[-1], &[7, 2, 8, 3, 12])?)?;
    lines.push(line(alloc, &[], &[13, 1, 9, 2, 10, 3, 11])?)?;
    let log = log(alloc, &lines)?;
    assert_eq!(rt; check_log(alloc, &clauses, &log), Ok(()));
    assert!(rt; log.ends_empty());
    Ok(())
}

#[test]
fn line_that_names_itself(rt: HostRuntime) -> Result<(), Fail> {
    let alloc = rt.alloc();
    let clauses = three_stations(alloc)?;
    let mut lines = Vec::new(alloc);
    lines.push(line(alloc, &[-1], &[7, 2, 8, 3, 12])?)?;
    lines.push(line(alloc, &[], &[14])?)?;
    let why = LineErr::NoSuchClause { hint: 1 };
    assert_eq!(rt;
        check_log(alloc, &clauses, &log(alloc, &lines)?),
        Err(LogErr::BadLine { line: 2, why })
    );
    Ok(())
}

#[test]
fn empty_line_in_the_middle_is_no_end(rt: HostRuntime) -> Result<(), Fail> {
    let alloc = rt.alloc();
    let clauses = three_stations(alloc)?;
    let mut lines = Vec::new(alloc);
    lines.push(line(alloc, &[-1], &[7, 2, 8, 3, 12])?)?;
    lines.push(line(alloc, &[], &[13, 1, 9, 2, 10, 3, 11])?)?;
    lines.push(line(alloc, &[], &[14])?)?;
    let log = log(alloc, &lines)?;
    assert_eq!(rt; check_log(alloc, &clauses, &log), Ok(()));
    assert!(rt; !log.ends_empty());
    Ok(())
}

#[test]
fn empty_log_follows_and_refutes_nothing(rt: HostRuntime) -> Result<(), Fail> {
    let alloc = rt.alloc();
    let clauses = three_stations(alloc)?;
    let log = log(alloc, &[])?;
    assert_eq!(rt; check_log(alloc, &clauses, &log), Ok(()));
    assert!(rt; !log.ends_empty());
    Ok(())
}

#[test]
fn clauses_of_variables_past_the_last(rt: HostRuntime) -> Result<(), Fail> {
    let alloc = rt.alloc();
    let mut clauses = ClauseList::new(alloc, 1);
    clauses.add(&lits(alloc, &[9])?)?;
    clauses.add(&lits(alloc, &[-9])?)?;
    assert_eq!(rt; answer(alloc, &clauses, &[], &[1, 2])?, Ok(()));
    assert_eq!(rt;
        answer(alloc, &clauses, &[], &[2, 2])?,
        Err(LineErr::NotFalsified)
    );
    Ok(())
}

// Returns lines with one literal and one hint each. The literals are DIMACS numbers.
fn lines_of(alloc: Global, numbers: &[i64], hints: &[u64]) -> Result<Lines, NoMemory> {
    let mut lines = Lines::new(alloc);
    for i in 0..numbers.len().min(hints.len()) {
        let lits = lits(alloc, &numbers[i..i + 1])?;
        lines.push(&lits, &hints[i..i + 1])?;
    }
    Ok(lines)
}

// Checks whether the line at a place has exactly this literal, as a DIMACS number, and this hint.
fn is_there(lines: &Lines, place: usize, number: i64, hint: u64) -> bool {
    if place >= lines.len() {
        return false;
    }
    let mut lits = lines.lits(place);
    let mut hints = lines.hints(place);
    let same = match lits.next() {
        Some(lit) => lit.var == number.unsigned_abs() && lit.positive == (number > 0),
        None => false,
    };
    same && hints.next() == Some(hint) && lits.next().is_none() && hints.next().is_none()
}

#[test]
fn numbers_of_each_length_round_trip(rt: HostRuntime) -> Result<(), Fail> {
    let alloc = rt.alloc();
    let numbers = [
        1,
        -63,
        64,
        -8191,
        8192,
        -1_048_576,
        2_147_483_648,
        -9_223_372_036_854_775_807,
    ];
    let hints = [0, 1, 127, 128, 16_383, 16_384, 4_294_967_296, u64::MAX];
    let mut lines = lines_of(alloc, &numbers, &hints)?;
    for i in 0..numbers.len() {
        assert!(rt; is_there(&lines, i, numbers[i], hints[i]));
    }
    let too_great = Lit {
        var: 9_223_372_036_854_775_808,
        positive: true,
    };
    assert!(rt; lines.push(&[too_great], &[]).is_err());
    assert_eq!(rt; lines.len(), 8);
    lines.push(&[], &[])?;
    assert!(rt; lines.is_empty_at(8) && !lines.is_empty());
    lines.pop();
    assert!(rt; is_there(&lines.fitted(), 7, numbers[7], hints[7]));
    Ok(())
}
