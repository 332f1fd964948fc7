//! Reading and writing LRAT texts: a refutation of three stations on two channels, all accepted spellings, and texts that are rejected at
//! their first error.

use crate::samples::answers::lits;
use clause_db::list::ClauseList;
use lrat_text::LratErr;
use lrat_text::read::read_log;
use lrat_text::write::{write_dimacs, write_log};
use rup_check::check::check_log;
use rup_check::line::Log;
use rup_check::lines::Lines;
use std::alloc::{AllocError as NoMemory, Global};
use std::test::Fail;

// No two of three stations may share one of two channels.
const FORMULA: &[[i64; 2]] = &[
    [1, 2],
    [3, 4],
    [5, 6],
    [-1, -2],
    [-3, -4],
    [-5, -6],
    [-1, -3],
    [-1, -5],
    [-2, -4],
    [-2, -6],
    [-3, -5],
    [-4, -6],
];

const FORMULA_TEXT: &[u8] =
    b"p cnf 6 12\n1 2 0\n3 4 0\n5 6 0\n-1 -2 0\n-3 -4 0\n-5 -6 0\n-1 -3 0\n-1 -5 0\n-2 -4 0\n-2 -6 0\n-3 -5 0\n-4 -6 0\n";

// A refutation of `FORMULA`.
const LINES: &[(&[i64], &[u64])] = &[(&[-1], &[7, 2, 8, 3, 12]), (&[], &[13, 1, 9, 2, 10, 3, 11])];

const LINES_TEXT: &[u8] = b"13 -1 0 7 2 8 3 12 0\n14 0 13 1 9 2 10 3 11 0\n";

// All numbers of a text are below this bound.
const TOP: u64 = 9_223_372_036_854_775_808;

fn formula(alloc: Global) -> Result<ClauseList, NoMemory> {
    let mut clauses = ClauseList::new(alloc, 6);
    for clause in FORMULA {
        clauses.add(&lits(alloc, clause)?)?;
    }
    Ok(clauses)
}

fn log(alloc: Global, lines: &[(&[i64], &[u64])]) -> Result<Log, NoMemory> {
    let mut flat = Lines::new(alloc);
    for (numbers, hints) in lines {
        flat.push(&lits(alloc, numbers)?, hints)?;
    }
    Ok(Log { lines: flat })
}

// Returns the text of a log, with lines numbered from `first`.
fn written(alloc: Global, first: u64, log: &Log) -> Result<Vec<u8>, LratErr> {
    if first > TOP || log.lines.len() as u64 > TOP - first {
        return Err(LratErr::NoMemory);
    }
    Ok(write_log(alloc, first, log)?)
}

// Reads a text over this many clauses. Returns the log as a text with lines numbered from 1. A hint is the position of its clause or line,
// with the clauses first.
fn read(alloc: Global, clauses: u64, text: &[u8]) -> Result<Vec<u8>, LratErr> {
    let log = read_log(alloc, text, clauses)?;
    written(alloc, 1, &log)
}

// Checks whether the text is read with this outcome.
fn reads(alloc: Global, clauses: u64, text: &[u8], answer: Result<&[u8], LratErr>) -> bool {
    match (read(alloc, clauses, text), answer) {
        (Ok(said), Ok(wanted)) => said.as_slice() == wanted,
        (Err(why), Err(wanted)) => why == wanted,
        _ => false,
    }
}

#[test]
fn three_stations_both_ways(rt: HostRuntime) -> Result<(), Fail> {
    let alloc = rt.alloc();
    let clauses = formula(alloc)?;
    assert_eq!(rt; write_dimacs(alloc, &clauses)?.as_slice(), FORMULA_TEXT);
    let lines = log(alloc, LINES)?;
    assert_eq!(rt; written(alloc, 13, &lines)?.as_slice(), LINES_TEXT);
    let lines = read_log(alloc, LINES_TEXT, 12)?;
    assert_eq!(rt; written(alloc, 13, &lines)?.as_slice(), LINES_TEXT);
    assert_eq!(rt; check_log(alloc, &clauses, &lines), Ok(()));
    assert!(rt; lines.ends_empty());
    Ok(())
}

#[test]
fn texts_of_nothing(rt: HostRuntime) -> Result<(), Fail> {
    let alloc = rt.alloc();
    let mut clauses = ClauseList::new(alloc, 0);
    assert_eq!(rt;
        write_dimacs(alloc, &clauses)?.as_slice(),
        b"p cnf 0 0\n".as_slice()
    );
    clauses.add(&[])?;
    assert_eq!(rt;
        write_dimacs(alloc, &clauses)?.as_slice(),
        b"p cnf 0 1\n0\n".as_slice()
    );
    let nothing = log(alloc, &[])?;
    assert_eq!(rt; written(alloc, 13, &nothing)?.as_slice(), b"".as_slice());
    Ok(())
}

// Returns how many lines are read of `LINES_TEXT` cut after this many bytes, or the error.
fn cut_says(bytes: usize) -> Result<usize, LratErr> {
    match bytes {
        0 => Ok(0),
        21 => Ok(1),
        45 => Ok(2),
        _ => Err(LratErr::Truncated),
    }
}

#[test]
fn cut_behind_each_byte(rt: HostRuntime) -> Result<(), Fail> {
    let alloc = rt.alloc();
    assert_eq!(rt; LINES_TEXT.len(), 45);
    for bytes in 0..LINES_TEXT.len() + 1 {
        let said = match read_log(alloc, &LINES_TEXT[..bytes], 12) {
            Ok(log) => Ok(log.lines.len()),
            Err(why) => Err(why),
        };
        assert_eq!(rt; said, cut_says(bytes));
    }
    Ok(())
}

const ONE: Result<&[u8], LratErr> = Ok(b"1 0 1 0\n");

const NONE: Result<&[u8], LratErr> = Ok(b"");

const BAD: Result<&[u8], LratErr> = Err(LratErr::BadLine { n: 1 });

const BAD_SECOND: Result<&[u8], LratErr> = Err(LratErr::BadLine { n: 2 });

const RAT: Result<&[u8], LratErr> = Err(LratErr::RatStep { n: 1 });

const CUT: Result<&[u8], LratErr> = Err(LratErr::Truncated);

// Texts over 12 clauses that are accepted, and what is read.
const TAKEN: &[(&[u8], Result<&[u8], LratErr>)] = &[
    (b"", NONE),
    (b"13 0 1 0\n", ONE),
    (b"13  0 1 0\n", ONE),
    (b"13\t0\t \t1 0\n", ONE),
    (b" \t13 0 1 0 \t\n", ONE),
    (b"13 0 1 0\r\n", ONE),
    (b"013 00 001 000\n", ONE),
    (b"00000000000000000000000000000000000000013 0 1 0\n", ONE),
    (b"\n \t\n\r\nc\nc d -x 99\n13 0 1 0\n c\n", ONE),
    (b"13 d 1 0\n", NONE),
    (b"0 d 0\n99 d 1 99 0\n99\td\t0 \r\n13 0 1 0\n", ONE),
    (b"20 0 12 0\n30 0 20 12 0\n", Ok(b"1 0 12 0\n2 0 13 12 0\n")),
    (b"13 0 0\n", Ok(b"1 0 0\n")),
    (b"13 -6 5 -6 0 0\n", Ok(b"1 -6 5 -6 0 0\n")),
];

// Texts over 12 clauses that are rejected.
const REFUSED: &[(&[u8], Result<&[u8], LratErr>)] = &[
    (b"13 -1 0 -7 0\n", RAT),
    (b"12 0 1 0\n", BAD),
    (b"13 0 1 0", CUT),
    (b"13 0 1 0\n1", CUT),
    (b"bad\n13 0 1 0\n ", CUT),
    (b"13 0 1 0\n13 0 1 0\n", BAD_SECOND),
    (b"20 0 1 0\n13 0 1 0\n", BAD_SECOND),
    (b"20 0 12 0\n30 0 13 0\n", BAD_SECOND),
    (b"13 0 1 0\n14 d 1 0 2\n", BAD_SECOND),
    (b"13 0 1 0\nbad\n14 0 -1 0\n", BAD_SECOND),
    (
        b"\nc\n13 0 1 0\n14 0 -1 0\nbad\n",
        Err(LratErr::RatStep { n: 4 }),
    ),
    (b"13 0 13 0\n", BAD),
    (b"13\n", BAD),
    (b"13 1\n", BAD),
    (b"13 1 0\n", BAD),
    (b"13 1 0 1\n", BAD),
    (b"13 1 0 1 0 0\n", BAD),
    (b"13 1 0 1 0 2\n", BAD),
    (b"0 0 1 0\n", BAD),
    (b"-13 0 1 0\n", BAD),
    (b"+13 0 1 0\n", BAD),
    (b"13 -0 1 0\n", BAD),
    (b"13 0 1 -0\n", BAD),
    (b"13 - 0 1 0\n", BAD),
    (b"13 --1 0 1 0\n", BAD),
    (b"13 1- 0 1 0\n", BAD),
    (b"13 0\r 1 0\n", BAD),
    (b"13 0 1 0\r\r\n", BAD),
    (b"13 0 1 0\x0c\n", BAD),
    (b"13 0 1 0\x00\n", BAD),
    (b"cc 13 0 1 0\n", BAD),
    (b"13 c 0 1 0\n", BAD),
    (b"13 0 99 -7 0\n", BAD),
    (b"13 0 -7 99 0\n", RAT),
    (b"13 x 0 -7 0\n", BAD),
    (b"13 0 -7 x\n", RAT),
    (b"d 1 0\n", BAD),
    (b"x d 1 0\n", BAD),
    (b"-1 d 1 0\n", BAD),
    (b"13 d\n", BAD),
    (b"13 d 1\n", BAD),
    (b"13 d -1 0\n", BAD),
    (b"13 d 0 0\n", BAD),
    (b"13 dd 0\n", BAD),
    (b"13 1 d 0\n", BAD),
];

#[test]
fn accepted_texts(rt: HostRuntime) -> Result<(), Fail> {
    let alloc = rt.alloc();
    for (text, answer) in TAKEN {
        assert!(rt; reads(alloc, 12, text, *answer));
    }
    Ok(())
}

#[test]
fn rejected_texts(rt: HostRuntime) -> Result<(), Fail> {
    let alloc = rt.alloc();
    for (text, answer) in REFUSED {
        assert!(rt; reads(alloc, 12, text, *answer));
    }
    Ok(())
}

// Texts with numbers at their bounds, over this many clauses.
const BOUNDS: &[(u64, &[u8], Result<&[u8], LratErr>)] = &[
    (12, b"9223372036854775807 0 1 0\n", ONE),
    (12, b"9223372036854775808 0 1 0\n", BAD),
    (
        12,
        b"13 9223372036854775807 -9223372036854775807 0 0\n",
        Ok(b"1 9223372036854775807 -9223372036854775807 0 0\n"),
    ),
    (12, b"13 9223372036854775808 0 0\n", BAD),
    (12, b"13 -9223372036854775808 0 0\n", BAD),
    (12, b"13 18446744073709551617 0 0\n", BAD),
    (12, b"13 340282366920938463463374607431768211457 0 0\n", BAD),
    (12, b"13 0 12 0\n", Ok(b"1 0 12 0\n")),
    (12, b"13 0 -9223372036854775807 0\n", RAT),
    (12, b"13 0 -9223372036854775808 0\n", BAD),
    (12, b"9223372036854775807 d 9223372036854775807 0\n", NONE),
    (12, b"9223372036854775808 d 0\n", BAD),
    (12, b"13 d 9223372036854775808 0\n", BAD),
    (0, b"1 0 0\n", Ok(b"1 0 0\n")),
    (0, b"1 0 1 0\n", BAD),
    (
        9_223_372_036_854_775_806,
        b"9223372036854775807 0 9223372036854775806 0\n",
        Ok(b"1 0 9223372036854775806 0\n"),
    ),
    (9_223_372_036_854_775_807, b"9223372036854775807 0 0\n", BAD),
    (
        18_446_744_073_709_551_615,
        b"9223372036854775807 0 0\n",
        BAD,
    ),
    (18_446_744_073_709_551_615, b"c\n1 d 1 0\n", NONE),
];

#[test]
fn numbers_at_their_bounds(rt: HostRuntime) -> Result<(), Fail> {
    let alloc = rt.alloc();
    for (clauses, text, answer) in BOUNDS {
        assert!(rt; reads(alloc, *clauses, text, *answer));
    }
    let line = log(alloc, &[(&[1], &[])])?;
    let text = written(alloc, TOP - 1, &line)?;
    assert_eq!(rt; text.as_slice(), b"9223372036854775807 1 0 0\n".as_slice());
    Ok(())
}
