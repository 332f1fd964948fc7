//! Workers that spend their budgets, alone and together with workers that decide.

use crate::scenes::scene::{RUN, Scene, outputs_match};
use std::alloc::{AllocError as NoMemory, Global};
use std::sync::Wait;
use std::test::Fail;
use std::thread::Threads;

// Returns the workers of the first row that has a fact which is not true of a run with these workers.
fn first_untrue_by<'a, W: Threads + Wait + Sync>(
    rt: &W,
    alloc: Global,
    table: &[(&'a str, &str)],
) -> Result<Option<&'a str>, NoMemory> {
    for &(workers, facts) in table {
        let scene = Scene { workers, ..RUN };
        if !outputs_match(rt, alloc, &scene, facts)? {
            return Ok(Some(workers));
        }
    }
    Ok(None)
}

const WORKERS: &[(&str, &str)] = &[
    (
        "{\"kind\":\"cdcl\",\"budget\":1}",
        "status 1; said: stations 3\non-air 2\nfrozen 1\nundecided 1\ntotal 60\n; out.csv: facility,outcome,round,price\n1,exit,2,0\n2,exit,1,0\n3,undecided,2,60\n; channels of the map; tr.txt ends: end 5; tests: 1.1 fits, 1.2 fits, 1.3 fits, 2.1 fits, 2.3 open after 1 line",
    ),
    (
        "{\"kind\":\"cdcl\",\"budget\":1},{\"kind\":\"cdcl\",\"budget\":1}",
        "status 1; said: stations 3\non-air 2\nfrozen 1\nundecided 1\ntotal 60\n; out.csv: facility,outcome,round,price\n1,exit,2,0\n2,exit,1,0\n3,undecided,2,60\n; tests: 1.1 fits, 1.2 fits, 1.3 fits, 2.1 fits, 2.3 open after 1 line + 1 line",
    ),
    (
        "{\"kind\":\"walk\",\"budget\":1,\"seed\":7},{\"kind\":\"cdcl\",\"budget\":1}",
        "status 1; said: stations 3\non-air 2\nfrozen 1\nundecided 1\ntotal 60\n; out.csv: facility,outcome,round,price\n1,exit,2,0\n2,exit,1,0\n3,undecided,2,60\n; tests: 1.1 fits, 1.2 fits, 1.3 fits, 2.1 fits, 2.3 open after 1 move + 1 line",
    ),
    // Sixteen workers, the maximum.
    (
        "{\"kind\":\"cdcl\",\"budget\":1},{\"kind\":\"cdcl\",\"budget\":1},{\"kind\":\"cdcl\",\"budget\":1},{\"kind\":\"cdcl\",\"budget\":1},{\"kind\":\"cdcl\",\"budget\":1},{\"kind\":\"cdcl\",\"budget\":1},{\"kind\":\"cdcl\",\"budget\":1},{\"kind\":\"cdcl\",\"budget\":1},{\"kind\":\"cdcl\",\"budget\":1},{\"kind\":\"cdcl\",\"budget\":1},{\"kind\":\"cdcl\",\"budget\":1},{\"kind\":\"cdcl\",\"budget\":1},{\"kind\":\"cdcl\",\"budget\":1},{\"kind\":\"cdcl\",\"budget\":1},{\"kind\":\"cdcl\",\"budget\":1},{\"kind\":\"cdcl\",\"budget\":1}",
        "status 1; said: stations 3\non-air 2\nfrozen 1\nundecided 1\ntotal 60\n; out.csv: facility,outcome,round,price\n1,exit,2,0\n2,exit,1,0\n3,undecided,2,60\n; tests: 1.1 fits, 1.2 fits, 1.3 fits, 2.1 fits, 2.3 open after 1 line + 1 line + 1 line + 1 line + 1 line + 1 line + 1 line + 1 line + 1 line + 1 line + 1 line + 1 line + 1 line + 1 line + 1 line + 1 line",
    ),
    // One worker decides, first or last in the list.
    (
        "{\"kind\":\"cdcl\",\"budget\":1},{\"kind\":\"cdcl\",\"budget\":1000}",
        "status 0; said: stations 3\non-air 2\nfrozen 1\nundecided 0\ntotal 60\n; out.csv: facility,outcome,round,price\n1,exit,2,0\n2,exit,1,0\n3,frozen,2,60\n; tests: 1.1 fits, 1.2 fits, 1.3 fits, 2.1 fits, 2.3 refuted by 1",
    ),
    (
        "{\"kind\":\"cdcl\",\"budget\":1000},{\"kind\":\"cdcl\",\"budget\":1}",
        "status 0; said: stations 3\non-air 2\nfrozen 1\nundecided 0\ntotal 60\n; out.csv: facility,outcome,round,price\n1,exit,2,0\n2,exit,1,0\n3,frozen,2,60\n; tests: 1.1 fits, 1.2 fits, 1.3 fits, 2.1 fits, 2.3 refuted by 0",
    ),
    (
        "{\"kind\":\"walk\",\"budget\":1,\"seed\":7},{\"kind\":\"cdcl\",\"budget\":1000}",
        "status 0; said: stations 3\non-air 2\nfrozen 1\nundecided 0\ntotal 60\n; out.csv: facility,outcome,round,price\n1,exit,2,0\n2,exit,1,0\n3,frozen,2,60\n; tests: 1.1 fits, 1.2 fits, 1.3 fits, 2.1 fits, 2.3 refuted by 1",
    ),
    // Either of two deciding workers may be the first.
    (
        "{\"kind\":\"cdcl\",\"budget\":1000},{\"kind\":\"cdcl\",\"budget\":1000}",
        "status 0; said: stations 3\non-air 2\nfrozen 1\nundecided 0\ntotal 60\n; out.csv: facility,outcome,round,price\n1,exit,2,0\n2,exit,1,0\n3,frozen,2,60\n; ending: done; total: 60",
    ),
    // A walk finds the fits, and cannot decide the set that does not fit.
    (
        "{\"kind\":\"walk\",\"budget\":10000,\"seed\":7},{\"kind\":\"cdcl\",\"budget\":1000}",
        "status 0; said: stations 3\non-air 2\nfrozen 1\nundecided 0\ntotal 60\n; out.csv: facility,outcome,round,price\n1,exit,2,0\n2,exit,1,0\n3,frozen,2,60\n; tests: 1.1 fits, 1.2 fits, 1.3 fits, 2.1 fits, 2.3 refuted by 1",
    ),
    (
        "{\"kind\":\"cdcl\",\"budget\":1000},{\"kind\":\"walk\",\"budget\":1000000,\"seed\":7}",
        "status 0; said: stations 3\non-air 2\nfrozen 1\nundecided 0\ntotal 60\n; out.csv: facility,outcome,round,price\n1,exit,2,0\n2,exit,1,0\n3,frozen,2,60\n; tests: 1.1 fits, 1.2 fits, 1.3 fits, 2.1 fits, 2.3 refuted by 0",
    ),
];

#[test]
fn one_worker_that_decides_is_enough(rt: HostRuntime) -> Result<(), Fail> {
    assert_eq!(rt; first_untrue_by(&rt, rt.alloc(), WORKERS)?, None);
    Ok(())
}
