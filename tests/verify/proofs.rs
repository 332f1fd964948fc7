//! `export` stores the formula of a step, and `import` replaces an undecided step by a proof.

use crate::scenes::change::Change;
use crate::scenes::scene::{RUN, Scene, first_untrue, outputs_match};
use crate::scenes::stations::{ONE_LINE, TRANSCRIPT};
use crate::verify::verified::{CHECKED, FROM_AIR, ONE};
use std::alloc::{AllocError as NoMemory, Global};
use std::sync::Wait;
use std::test::Fail;
use std::thread::Threads;

/// The transcript of the three stations with a worker whose budget is one line: the last test is undecided.
pub const LEFT_OPEN: &str =
    "transcript 1\nstart empty\nfit 1 1 1\nat 1 14\nfit 1 2 1\nat 2 14\nfit 1 3 1\nat 3 15\nfit 2 1 1\nat 1 15\nundecided 2 3 1\nlines 0 1\n13 -1 0 7 2 8 3 12 0\nend 5\n";

// A refutation of the set of three stations.
const TWO_LINES: &str = "13 -1 0 7 2 8 3 12 0\n14 0 13 1 9 2 10 3 11 0\n";

// The commands for the last step.
const IMPORT_LAST: &str = "repack import d.csv r.csv s.json tr.txt 5 p.lrat out.csv new.txt";

const EXPORT_LAST: &str = "repack export d.csv r.csv s.json tr.txt 5 f.cnf";

// Imports a log into the last step.
const IMPORT: Scene<'static> = Scene {
    command: IMPORT_LAST,
    workers: ONE_LINE,
    transcript: Some(LEFT_OPEN),
    log: Some(TWO_LINES),
    ..RUN
};

// Exports the last step of the same transcript.
const EXPORT: Scene<'static> = Scene {
    command: EXPORT_LAST,
    log: None,
    ..IMPORT
};

// Export other steps.
const EXPORT_FIRST: &str = "repack export d.csv r.csv s.json tr.txt 1 f.cnf";

const EXPORT_THIRD: &str = "repack export d.csv r.csv s.json tr.txt 3 f.cnf";

const EXPORT_SIXTH: &str = "repack export d.csv r.csv s.json tr.txt 6 f.cnf";

const FORMULAS: &[(Scene<'static>, &str)] = &[
    // An undecided step, and a step that a worker refuted.
    (
        EXPORT,
        "status 0; nothing said; f.cnf: p cnf 6 12\n1 2 0\n3 4 0\n5 6 0\n-1 -2 0\n-3 -4 0\n-5 -6 0\n-1 -3 0\n-1 -5 0\n-2 -4 0\n-2 -6 0\n-3 -5 0\n-4 -6 0\n; no record; inputs kept; no out.csv; no new.txt",
    ),
    (
        Scene {
            command: EXPORT_LAST,
            ..CHECKED
        },
        "status 0; nothing said; f.cnf: p cnf 6 12\n1 2 0\n3 4 0\n5 6 0\n-1 -2 0\n-3 -4 0\n-5 -6 0\n-1 -3 0\n-1 -5 0\n-2 -4 0\n-2 -6 0\n-3 -5 0\n-4 -6 0\n; no record; inputs kept",
    ),
    // A step that fits, a step without a channel, and a step whose set is the one of a round before.
    (
        Scene {
            command: EXPORT_FIRST,
            ..EXPORT
        },
        "status 0; nothing said; f.cnf: p cnf 2 2\n1 2 0\n-1 -2 0\n; no record; inputs kept",
    ),
    (
        Scene {
            command: EXPORT_FIRST,
            ..ONE
        },
        "status 0; nothing said; f.cnf: p cnf 0 1\n0\n; no record; inputs kept",
    ),
    (
        Scene {
            command: EXPORT_THIRD,
            ..FROM_AIR
        },
        "status 0; nothing said; f.cnf: p cnf 4 6\n1 2 0\n3 4 0\n-1 -2 0\n-3 -4 0\n-1 -3 0\n-2 -4 0\n; no record; inputs kept",
    ),
    // Steps are counted from 1.
    (
        Scene {
            command: EXPORT_SIXTH,
            ..EXPORT
        },
        "status 10; said: step 6: no such step\n; no f.cnf; no record; inputs kept",
    ),
    (
        Scene {
            transcript: Some("transcript 1\nstart empty\nend 0\n"),
            ..EXPORT
        },
        "status 9; said: tr.txt: step 1: order\n; no f.cnf; no record; inputs kept",
    ),
    (
        Scene {
            change: Change::Call(11),
            ..EXPORT
        },
        "status 4; said: cannot write f.cnf\n; no record; inputs kept; faults: 1",
    ),
];

#[test]
fn formulas_are_exported(rt: HostRuntime) -> Result<(), Fail> {
    assert_eq!(rt; first_untrue(&rt, rt.alloc(), FORMULAS)?, None);
    Ok(())
}

// The facts when the step is decided.
const SETTLED: &str =
    "status 0; said: stations 3\non-air 2\nfrozen 1\nundecided 0\ntotal 60\n; out.csv: facility,outcome,round,price\n1,exit,2,0\n2,exit,1,0\n3,frozen,2,60\n; new.txt: transcript 1\nstart empty\nfit 1 1 1\nat 1 14\nfit 1 2 1\nat 2 14\nfit 1 3 1\nat 3 15\nfit 2 1 1\nat 1 15\noutside 2 3 2\n13 -1 0 7 2 8 3 12 0\n14 0 13 1 9 2 10 3 11 0\nend 5\n; tests: 1.1 fits, 1.2 fits, 1.3 fits, 2.1 fits, 2.3 refuted from outside; map: 1 on 15, 2 on 14; inputs kept";

// Logs, and the facts of an import of each.
const LOGS: &[(&str, &str)] = &[
    (TWO_LINES, SETTLED),
    // Lines after the first empty clause; numbers with gaps; deletions, comments and blank lines.
    (
        "13 -1 0 7 2 8 3 12 0\n14 0 13 1 9 2 10 3 11 0\n15 0 14 0\n16 1 0 15 0\n",
        SETTLED,
    ),
    ("20 -1 0 7 2 8 3 12 0\n31 0 20 1 9 2 10 3 11 0\n", SETTLED),
    (
        "c a log\n\n13 d 4 5 0\n13 -1 0 7 2 8 3 12 0\r\n 14\t0 13 1 9 2 10 3 11 0 \n14 d 7 0\n",
        SETTLED,
    ),
    // Texts that are not logs.
    (
        "13 -1 0 -7 2 0\n",
        "status 10; said: p.lrat: line 1: RAT step\n; no out.csv; no new.txt; no record; inputs kept",
    ),
    (
        "13 -1 0 7 2 8 3 12 0\n14 0 13 1 9 2 10 3 11 0",
        "status 10; said: p.lrat: truncated\n; no out.csv; no new.txt; no record; inputs kept",
    ),
    (
        "13 -1 0 7 2 8 3 12 0\n14 0 15 0\n",
        "status 10; said: p.lrat: line 2: bad line\n; no out.csv; no new.txt; no record; inputs kept",
    ),
    (
        "13 -1 0 7 2 8 3 12 0\n14 0 13 1 9 2 10 3 11 0\n15 0 99 0\n",
        "status 10; said: p.lrat: line 3: bad line\n; no out.csv; no new.txt; no record; inputs kept",
    ),
    // Logs that are no refutation: no line, no empty clause, an invalid last line, an invalid line before the last.
    (
        "",
        "status 10; said: p.lrat: not a refutation\n; no out.csv; no new.txt; no record; inputs kept",
    ),
    (
        "13 -1 0 7 2 8 3 12 0\n",
        "status 10; said: p.lrat: not a refutation\n; no out.csv; no new.txt; no record; inputs kept",
    ),
    (
        "13 0 1 9 2 10 3 11 0\n",
        "status 10; said: p.lrat: not a refutation\n; no out.csv; no new.txt; no record; inputs kept",
    ),
    (
        "13 -1 0 2 7 8 3 12 0\n14 0 13 1 9 2 10 3 11 0\n",
        "status 10; said: p.lrat: not a refutation\n; no out.csv; no new.txt; no record; inputs kept",
    ),
];

// Returns the log of the first row that has a fact which is not true of its import.
fn first_untrue_log<'a, W: Threads + Wait + Sync>(
    rt: &W,
    alloc: Global,
    table: &[(&'a str, &str)],
) -> Result<Option<&'a str>, NoMemory> {
    for &(log, facts) in table {
        let scene = Scene {
            log: Some(log),
            ..IMPORT
        };
        if !outputs_match(rt, alloc, &scene, facts)? {
            return Ok(Some(log));
        }
    }
    Ok(None)
}

#[test]
fn logs_are_imported(rt: HostRuntime) -> Result<(), Fail> {
    assert_eq!(rt; first_untrue_log(&rt, rt.alloc(), LOGS)?, None);
    Ok(())
}

const FAILS: &[(Scene<'static>, &str)] = &[
    (
        Scene {
            command: "repack import d.csv r.csv s.json tr.txt 4 p.lrat out.csv new.txt",
            ..IMPORT
        },
        "status 10; said: step 4: not undecided\n; no out.csv; no new.txt; no record; inputs kept",
    ),
    (
        Scene {
            command: "repack import d.csv r.csv s.json tr.txt 6 p.lrat out.csv new.txt",
            ..IMPORT
        },
        "status 10; said: step 6: no such step\n; no out.csv; no new.txt; no record; inputs kept",
    ),
    (
        Scene {
            command: "repack import d.csv r.csv s.json tr.txt 0 p.lrat out.csv new.txt",
            ..IMPORT
        },
        "status 2; something said; no out.csv; no new.txt; no record; inputs kept",
    ),
    // A step that a worker refuted is rejected before the log is read.
    (
        Scene {
            command: IMPORT_LAST,
            log: None,
            transcript: Some(TRANSCRIPT),
            ..CHECKED
        },
        "status 10; said: step 5: not undecided\n; no out.csv; no new.txt; no record; inputs kept",
    ),
    // A transcript that `verify` rejects is reported first.
    (
        Scene {
            command: "repack import d.csv r.csv s.json tr.txt 6 p.lrat out.csv new.txt",
            transcript: Some("transcript 1\nstart empty\nend 0\n"),
            ..IMPORT
        },
        "status 9; said: tr.txt: step 1: order\n; no out.csv; no new.txt; no record; inputs kept",
    ),
    (
        Scene {
            log: None,
            ..IMPORT
        },
        "status 3; said: cannot read p.lrat\n; no out.csv; no new.txt; no record; inputs kept",
    ),
    (
        Scene {
            change: Change::Call(11),
            ..IMPORT
        },
        "status 3; said: cannot read p.lrat\n; no out.csv; no new.txt; no record; inputs kept; faults: 1",
    ),
    (
        Scene {
            change: Change::Call(12),
            ..IMPORT
        },
        "status 4; said: cannot write out.csv\n; no new.txt; a record; inputs kept; faults: 1",
    ),
    (
        Scene {
            change: Change::Call(13),
            ..IMPORT
        },
        "status 4; said: cannot write new.txt\n; out.csv: facility,outcome,round,price\n1,exit,2,0\n2,exit,1,0\n3,frozen,2,60\n; a record; inputs kept; faults: 1",
    ),
    (
        Scene {
            change: Change::Write(1),
            ..IMPORT
        },
        "status 4; nothing said; out.csv: facility,outcome,round,price\n1,exit,2,0\n2,exit,1,0\n3,frozen,2,60\n; a record; inputs kept",
    ),
];

#[test]
fn steps_and_files_that_fail(rt: HostRuntime) -> Result<(), Fail> {
    assert_eq!(rt; first_untrue(&rt, rt.alloc(), FAILS)?, None);
    Ok(())
}

// A fourth station interferes with the first two, as the third does: two tests are undecided.
const TWO_OPEN: Scene<'static> = Scene {
    domains: "DOMAIN,1,14,15\nDOMAIN,2,14,15\nDOMAIN,3,14,15\nDOMAIN,4,14,15\n",
    rows: "CO,14,14,1,2,3,4\nCO,14,14,2,3,4\nCO,15,15,1,2,3,4\nCO,15,15,2,3,4\n",
    stations: "{\"id\":1,\"volume\":1,\"value\":50},{\"id\":2,\"volume\":1,\"value\":70},{\"id\":3,\"volume\":1,\"value\":10},{\"id\":4,\"volume\":1,\"value\":10}",
    transcript: Some(
        "transcript 1\nstart empty\nfit 1 1 1\nat 1 14\nfit 1 2 1\nat 2 14\nfit 1 3 1\nat 3 15\nfit 1 4 1\nat 4 15\nfit 2 1 1\nat 1 15\nundecided 2 3 1\nlines 0 1\n13 -1 0 7 2 8 3 12 0\nundecided 2 4 1\nlines 0 1\n13 -1 0 7 2 8 3 12 0\nend 7\n",
    ),
    ..IMPORT
};

const STAY_OPEN: &[(Scene<'static>, &str)] = &[
    (
        Scene {
            command: "repack import d.csv r.csv s.json tr.txt 6 p.lrat out.csv new.txt",
            ..TWO_OPEN
        },
        "status 1; said: stations 4\non-air 2\nfrozen 2\nundecided 1\ntotal 120\n; out.csv: facility,outcome,round,price\n1,exit,2,0\n2,exit,1,0\n3,frozen,2,60\n4,undecided,2,60\n; tests: 1.1 fits, 1.2 fits, 1.3 fits, 1.4 fits, 2.1 fits, 2.3 refuted from outside, 2.4 open after 1 line; inputs kept",
    ),
    (
        Scene {
            command: "repack import d.csv r.csv s.json tr.txt 7 p.lrat out.csv new.txt",
            ..TWO_OPEN
        },
        "status 1; said: stations 4\non-air 2\nfrozen 2\nundecided 1\ntotal 120\n; out.csv: facility,outcome,round,price\n1,exit,2,0\n2,exit,1,0\n3,undecided,2,60\n4,frozen,2,60\n; tests: 1.1 fits, 1.2 fits, 1.3 fits, 1.4 fits, 2.1 fits, 2.3 open after 1 line, 2.4 refuted from outside; inputs kept",
    ),
];

#[test]
fn other_steps_stay_open(rt: HostRuntime) -> Result<(), Fail> {
    assert_eq!(rt; first_untrue(&rt, rt.alloc(), STAY_OPEN)?, None);
    Ok(())
}
