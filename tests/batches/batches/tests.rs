//! What a batch prints and stores.

use super::scene::{BATCH, first_untrue, outputs_match};
use crate::scenes::change::Change;
use std::alloc::{AllocError as NoMemory, Global};
use std::test::Fail;

// Batches that run to the end.
const DONE: &[(&str, Change<'static>, &str)] = &[
    (
        "plain,1.csv\nhigh,3.csv\n",
        Change::Nothing,
        "status 0; said: plain 0\nhigh 0\n; records: done, done; 1.csv: facility,outcome,round,price\n1,exit,2,0\n2,exit,1,0\n3,frozen,2,60\n; no 2.csv; 3.csv: facility,outcome,round,price\n1,exit,2,0\n2,start,0,0\n3,frozen,2,60\n; inputs kept; no record",
    ),
    // With one channel, station 3 is frozen at its first test, and station 1 once station 2 is on air.
    (
        " low , 1.csv \n\nplain,2.csv,,\nlow,3.csv\n",
        Change::Nothing,
        "status 0; said: low 0\nplain 0\nlow 0\n; records: done, done, done; 1.csv: facility,outcome,round,price\n1,frozen,2,60\n2,exit,1,0\n3,frozen,1,100\n; 2.csv: facility,outcome,round,price\n1,exit,2,0\n2,exit,1,0\n3,frozen,2,60\n; 3.csv: facility,outcome,round,price\n1,frozen,2,60\n2,exit,1,0\n3,frozen,1,100\n",
    ),
    // A refutation from another auction is too long for a budget of one line.
    (
        "plain,1.csv\nshort,2.csv\n",
        Change::Nothing,
        "status 1; said: plain 0\nshort 1\n; records: done, done; 2.csv: facility,outcome,round,price\n1,exit,2,0\n2,exit,1,0\n3,undecided,2,60\n",
    ),
    (
        "unfit,1.csv\nplain,2.csv\nopen,3.csv\nshort,4.csv\n",
        Change::Nothing,
        "status 11; said: unfit 6\nplain 0\nopen 7\nshort 1\n; records: start refuted, done, start open, done; no 1.csv; 2.csv: facility,outcome,round,price\n1,exit,2,0\n2,exit,1,0\n3,frozen,2,60\n; no 3.csv; 4.csv: facility,outcome,round,price\n1,exit,2,0\n2,exit,1,0\n3,undecided,2,60\n; inputs kept",
    ),
    // All lines are one write, so no second write can fail.
    (
        "plain,1.csv\nshort,2.csv\nopen,3.csv\n",
        Change::Write(2),
        "status 11; said: plain 0\nshort 1\nopen 7\n; records: done, done, start open",
    ),
    (
        "open,1.csv\n",
        Change::Nothing,
        "status 11; said: open 7\n; records: start open; no 1.csv",
    ),
];

// Batches that stop with an error.
const STOPPED: &[(&str, Change<'static>, &str)] = &[
    (
        "",
        Change::Nothing,
        "status 5; said: l.csv: empty list\n; records: none; no 1.csv; inputs kept; no record",
    ),
    (
        "plain,1.csv\nhigh\n",
        Change::Nothing,
        "status 5; said: l.csv: line 2: bad list\n; records: none; no 1.csv",
    ),
    (
        "plain,1.csv\nhigh,1.csv\n",
        Change::Nothing,
        "status 5; said: 1.csv: given twice\n; records: none; no 1.csv",
    ),
    (
        "plain,1.csv\nhigh,plain\nbroken,2.csv\n",
        Change::Nothing,
        "status 5; said: plain: given twice\n; no 1.csv",
    ),
    (
        "plain,1.csv\nhigh,l.csv\n",
        Change::Nothing,
        "status 5; said: l.csv: given twice\n; no 1.csv",
    ),
    // The third of five scenarios is rejected, and the fourth is not loaded.
    (
        "plain,1.csv\nhigh,2.csv\nbroken,3.csv\nmissing,4.csv\nplain,5.csv\n",
        Change::Nothing,
        "status 5; said: broken: not JSON\n; records: none; no 1.csv; no 5.csv",
    ),
    (
        "plain,1.csv\nstranger,2.csv\n",
        Change::Nothing,
        "status 5; said: d.csv: no domain row for station 9\n; no 1.csv",
    ),
    (
        "plain,1.csv\nmissing,2.csv\nbroken,3.csv\n",
        Change::Nothing,
        "status 3; said: cannot read missing\n; records: none; no 1.csv; inputs kept",
    ),
    (
        "",
        Change::Missing("l.csv"),
        "status 3; said: cannot read l.csv\n; no 1.csv",
    ),
    // A numbered call fails. The folder first reads the domains and the rows, then loads the list and the scenarios.
    (
        "plain,1.csv\nhigh,2.csv\n",
        Change::Call(4),
        "status 3; said: cannot read r.csv\n; records: none; no 1.csv",
    ),
    (
        "plain,1.csv\nhigh,2.csv\n",
        Change::Call(7),
        "status 3; said: cannot read l.csv\n; no 1.csv",
    ),
    (
        "plain,1.csv\nhigh,2.csv\n",
        Change::Call(9),
        "status 3; said: cannot read high\n; no 1.csv",
    ),
    // A store fails; in the next row the write of the lines fails.
    (
        "plain,1.csv\nunfit,2.csv\nhigh,3.csv\n",
        Change::Call(12),
        "status 4; said: cannot write 3.csv\n; records: done, start refuted, done; 1.csv: facility,outcome,round,price\n1,exit,2,0\n2,exit,1,0\n3,frozen,2,60\n; no 2.csv; no 3.csv; no record",
    ),
    (
        "plain,1.csv\nhigh,3.csv\n",
        Change::Write(1),
        "status 4; records: done, done; 1.csv: facility,outcome,round,price\n1,exit,2,0\n2,exit,1,0\n3,frozen,2,60\n; 3.csv: facility,outcome,round,price\n1,exit,2,0\n2,start,0,0\n3,frozen,2,60\n",
    ),
];

#[test]
fn batches_are_carried_out(rt: HostRuntime) -> Result<(), Fail> {
    assert_eq!(rt; first_untrue(&rt, rt.alloc(), DONE)?, None);
    Ok(())
}

#[test]
fn batches_stop(rt: HostRuntime) -> Result<(), Fail> {
    assert_eq!(rt; first_untrue(&rt, rt.alloc(), STOPPED)?, None);
    Ok(())
}

// Returns a list that names the same scenario this many times.
fn list_of(alloc: Global, count: u32) -> Result<String, NoMemory> {
    let mut list = String::new(alloc);
    for number in 1..=count {
        let line = format!(in alloc; "plain,{number}.csv\n")?;
        list.push_str(&line)?;
    }
    Ok(list)
}

// Returns the lines that the batch prints for `list_of`.
fn lines_of(alloc: Global, count: u32) -> Result<String, NoMemory> {
    let mut lines = String::new(alloc);
    for _ in 0..count {
        lines.push_str("plain 0\n")?;
    }
    Ok(lines)
}

#[test]
fn one_scenario_twenty_times(rt: HostRuntime) -> Result<(), Fail> {
    let alloc = rt.alloc();
    let list = list_of(alloc, 20)?;
    let lines = lines_of(alloc, 20)?;
    let facts = format!(in alloc;
        "status 0; said: {lines}; 1.csv: facility,outcome,round,price\n1,exit,2,0\n2,exit,1,0\n3,frozen,2,60\n; 20.csv: facility,outcome,round,price\n1,exit,2,0\n2,exit,1,0\n3,frozen,2,60\n"
    )?;
    let done = outputs_match(&rt, alloc, BATCH, &list, Change::Nothing, &facts)?;
    assert!(rt; done);
    Ok(())
}

#[test]
fn words_of_a_batch(rt: HostRuntime) -> Result<(), Fail> {
    let alloc = rt.alloc();
    let list = "plain,1.csv\n";
    let few = "repack batch d.csv r.csv";
    assert!(rt;
        outputs_match(
            &rt,
            alloc,
            few,
            list,
            Change::Nothing,
            "status 2; no 1.csv; records: none"
        )?
    );
    let same = "repack batch d.csv r.csv r.csv";
    assert!(rt;
        outputs_match(
            &rt,
            alloc,
            same,
            list,
            Change::Nothing,
            "status 5; said: r.csv: line 1: bad list\n"
        )?
    );
    Ok(())
}
