//! A run whose two workers meet at each query, by a gate that the program receives.

use crate::samples::gates::Meeting;
use crate::scenes::scene::{RUN, Scene, outputs_match_with_gate};
use std::test::Fail;

// The three stations and two workers, each with a budget that decides every query.
const TWO_LEARN: Scene<'static> = Scene {
    workers: "{\"kind\":\"cdcl\",\"budget\":1000},{\"kind\":\"cdcl\",\"budget\":1000}",
    ..RUN
};

// Worker 1 answers each query first, and its proof refutes the last set.
const LEFT: &str =
    "status 0; said: stations 3\non-air 2\nfrozen 1\nundecided 0\ntotal 60\n; out.csv: facility,outcome,round,price\n1,exit,2,0\n2,exit,1,0\n3,frozen,2,60\n; channels of the map; tr.txt ends: end 5; tests: 1.1 fits, 1.2 fits, 1.3 fits, 2.1 fits, 2.3 refuted by 1; inputs kept";

// Both workers reach each of the five queries, and each waits there for the other. Workers that take turns on one thread never call
// this gate, and neither do workers that get another gate.
#[test]
fn both_workers_of_a_run_meet_at_each_query(rt: HostRuntime) -> Result<(), Fail> {
    let gate = Meeting::new();
    assert!(rt; outputs_match_with_gate(&rt, rt.alloc(), &TWO_LEARN, &gate, LEFT)?);
    assert_eq!(rt; gate.first_met(), 12_345);
    assert_eq!(rt; gate.second_met(), 12_345);
    Ok(())
}
