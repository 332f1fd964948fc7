//! An outside proof settles an undecided test, and a log is cut after its first empty line.

use crate::samples::answers::two_lines;
use crate::samples::books::three_stations;
use crate::samples::scenarios::three_bids_by_one;
use crate::texts::undecided_steps::samples::record_in;
use crate::texts::complete_texts::LAST_LEFT_OPEN;
use auction_core::record::{Ending, Record, Shown};
use cert_types::outside::certify_outside;
use clause_db::lit::Lit;
use undecided_tests::cut::up_to_empty;
use undecided_tests::replace::replace_undecided;
use undecided_tests::task::task_at;
use pack_defs::book::Book;
use result_text::rows::result_csv;
use rup_check::line::Log;
use rup_check::lines::Lines;
use std::alloc::{AllocError as NoMemory, Global};
use std::test::Fail;

// Checks whether the record's result is this text.
fn tells(alloc: Global, rec: &Record, book: &Book, rows: &[u8]) -> Result<bool, NoMemory> {
    if rec.ending != Ending::Done {
        return Ok(false);
    }
    let text = result_csv(alloc, rec, book)?;
    Ok(text.as_slice() == rows)
}

// Checks whether the record has a step of this number, from 1, that is undecided.
fn is_left_open(rec: &Record, step: u32) -> bool {
    if step == 0 {
        return false;
    }
    match rec.steps.as_slice().get(step as usize - 1) {
        Some(x) => matches!(x.shown, Shown::Undecided(_)),
        None => false,
    }
}

// Returns the record with this step settled by the log. Returns `None` if the step is not undecided, or if the log does not refute its set.
fn settled(
    alloc: Global,
    rec: Record,
    book: &Book,
    step: u32,
    log: Log,
) -> Result<Option<Record>, NoMemory> {
    if !is_left_open(&rec, step) {
        return Ok(None);
    }
    let task = task_at(alloc, &rec, book, step)?;
    match certify_outside(alloc, book, &task, log) {
        Ok(proof) => Ok(Some(replace_undecided(rec, book, step, proof))),
        Err(_) => Ok(None),
    }
}

// Checks whether the step at this index is settled by an outside proof.
fn is_by_proof(rec: &Record, place: usize) -> bool {
    match rec.steps.as_slice().get(place) {
        Some(step) => matches!(step.shown, Shown::Outside(_)),
        None => false,
    }
}

// Checks whether no step is undecided.
fn no_outputs_stored(rec: &Record) -> bool {
    for step in rec.steps.as_slice() {
        if matches!(step.shown, Shown::Undecided(_)) {
            return false;
        }
    }
    true
}

#[test]
fn undecided_test_is_settled(rt: HostRuntime) -> Result<(), Fail> {
    let alloc = rt.alloc();
    let book = three_stations(alloc)?;
    let sc = three_bids_by_one(alloc, 70, 1, 1)?;
    let Some(rec) = record_in(alloc, &sc, &book, LAST_LEFT_OPEN) else {
        return Err(Fail::new("no record"));
    };
    let before = b"facility,outcome,round,price\n1,exit,2,0\n2,exit,1,0\n3,undecided,2,60\n";
    assert!(rt; tells(alloc, &rec, &book, before)?);
    let Some(rec) = settled(alloc, rec, &book, 5, two_lines(alloc)?)? else {
        return Err(Fail::new("not settled"));
    };
    assert!(rt; is_by_proof(&rec, 4) && no_outputs_stored(&rec));
    let after = b"facility,outcome,round,price\n1,exit,2,0\n2,exit,1,0\n3,frozen,2,60\n";
    assert!(rt; tells(alloc, &rec, &book, after)?);
    Ok(())
}

// Returns how many lines `up_to_empty` keeps of a log. `empty` says which lines are empty.
fn kept(alloc: Global, empty: &[bool]) -> Result<usize, NoMemory> {
    let lit = Lit {
        var: 0,
        positive: true,
    };
    let mut lines = Lines::new(alloc);
    for empty in empty {
        if *empty {
            lines.push(&[], &[1])?;
        } else {
            lines.push(&[lit], &[1])?;
        }
    }
    Ok(up_to_empty(Log { lines }).lines.len())
}

// Which lines are empty, and how many are kept.
const LOGS: &[(&[bool], usize)] = &[
    (&[], 0),
    (&[false, false], 2),
    (&[false, true], 2),
    (&[false, true, false], 2),
    (&[true, false, true], 1),
];

#[test]
fn a_log_ends_at_its_first_empty_line(rt: HostRuntime) -> Result<(), Fail> {
    let alloc = rt.alloc();
    for log in LOGS {
        assert_eq!(rt; kept(alloc, log.0)?, log.1);
    }
    Ok(())
}
