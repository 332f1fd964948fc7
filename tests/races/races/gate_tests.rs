//! Two workers meet at each query, held by a gate.

use crate::races::races::tests::{By, freezes};
use crate::samples::gates::Meeting;
use crate::samples::scenarios::three_bids;
use crate::samples::workers::learner;
use std::test::Fail;

// Two workers race at each of the five queries. Worker 0 waits before its posting until worker 1 is answered, and neither wait times out.
// So the first answer is worker 1's, and its proof refutes the last set.
#[test]
fn two_workers_race_at_each_query(rt: HostRuntime) -> Result<(), Fail> {
    let alloc = rt.alloc();
    let workers = vec![in alloc; learner(1000), learner(1000)]?;
    let sc = three_bids(alloc, 70, 1, workers)?;
    let gate = Meeting::new();
    assert!(rt; freezes(&rt, alloc, &gate, &sc, By::ProofOf(1))?);
    assert_eq!(rt; gate.first_met(), 12_345);
    assert_eq!(rt; gate.second_met(), 12_345);
    Ok(())
}
