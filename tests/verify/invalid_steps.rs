//! `verify` on transcripts with an invalid step, and on transcripts with undecided tests.

use crate::scenes::change::replaced;
use crate::scenes::scene::{Scene, outputs_match};
use crate::scenes::stations::{LAST_STEP, ONE_LINE, TRANSCRIPT};
use crate::verify::verified::{CHECKED, first_untrue_text};
use std::alloc::{AllocError as NoMemory, Global};
use std::sync::Wait;
use std::test::Fail;
use std::thread::Threads;

// A part of the transcript, its replacement, and the expected facts. Each result is a well-formed transcript with a step whose
// certificate is invalid.
const FAULTS: &[(&str, &str, &str)] = &[
    // A fit without the station's channel, with another station's channel, with a channel outside the domain, or with a violated pair.
    (
        "fit 1 1 1\nat 1 14\n",
        "fit 1 1 0\n",
        "status 9; said: tr.txt: step 1: not valid\n; no record",
    ),
    (
        "at 1 14",
        "at 2 15",
        "status 9; said: tr.txt: step 1: not valid\n; no record",
    ),
    (
        "at 1 14",
        "at 1 16",
        "status 9; said: tr.txt: step 1: not valid\n; no record",
    ),
    (
        "at 1 15",
        "at 1 14",
        "status 9; said: tr.txt: step 4: not valid\n; no record",
    ),
    // Step kinds without a query, for a test that needs one.
    (
        "fit 2 1 1\nat 1 15\n",
        "same 2 1\n",
        "status 9; said: tr.txt: step 4: not valid\n; no record",
    ),
    (
        "fit 2 1 1\nat 1 15\n",
        "none 2 1\n",
        "status 9; said: tr.txt: step 4: not valid\n; no record",
    ),
    // A proof without lines, one over a station outside the query's set, and one with a line that does not follow.
    (
        "log 2 3 0 2\non 1 2 3\n13 -1 0 7 2 8 3 12 0\n14 0 13 1 9 2 10 3 11 0\n",
        "log 2 3 0 0\non 1 2 3\n",
        "status 9; said: tr.txt: step 5: not valid\n; no record",
    ),
    (
        "fit 2 1 1\nat 1 15\n",
        "log 2 1 0 2\non 1 2 3\n13 -1 0 7 2 8 3 12 0\n14 0 13 1 9 2 10 3 11 0\n",
        "status 9; said: tr.txt: step 4: not valid\n; no record",
    ),
    (
        "8 3 12 0",
        "8 3 11 0",
        "status 9; said: tr.txt: step 5: not valid\n; no record",
    ),
    // The proof lacks the empty clause.
    (
        "log 2 3 0 2\non 1 2 3\n13 -1 0 7 2 8 3 12 0\n14 0 13 1 9 2 10 3 11 0\n",
        "log 2 3 0 1\non 1 2 3\n13 -1 0 7 2 8 3 12 0\n",
        "status 9; said: tr.txt: step 5: not valid\n; no record",
    ),
    // The pair is not dead.
    (
        "log 2 3 0 2\non 1 2 3\n13 -1 0 7 2 8 3 12 0\n14 0 13 1 9 2 10 3 11 0\n",
        "dead 2 3 0 1 15 3 15\n",
        "status 9; said: tr.txt: step 5: not valid\n; no record",
    ),
    // The first line of an outside proof has the wrong number.
    (
        "log 2 3 0 2\non 1 2 3\n13 -1 0 7 2 8 3 12 0\n14 0 13 1 9 2 10 3 11 0\n",
        "outside 2 3 2\n14 -1 0 7 2 8 3 12 0\n15 0 14 1 9 2 10 3 11 0\n",
        "status 9; said: tr.txt: step 5: not valid\n; no record",
    ),
];

#[test]
fn invalid_step_is_named(rt: HostRuntime) -> Result<(), Fail> {
    assert_eq!(rt; first_untrue_text(&rt, rt.alloc(), &CHECKED, FAULTS)?, None);
    Ok(())
}

// Checks whether `verify` on this transcript, with these workers, has these facts.
fn outputs_match_for_workers<'a, W: Threads + Wait + Sync>(
    rt: &W,
    alloc: Global,
    scene: &Scene<'a>,
    workers: &'a str,
    text: &'a str,
    facts: &str,
) -> Result<bool, NoMemory> {
    let changed = Scene {
        workers,
        transcript: Some(text),
        ..*scene
    };
    outputs_match(rt, alloc, &changed, facts)
}

// Checks whether `verify` on the transcript with another last step, with these workers, has these facts.
fn leaves_last<W: Threads + Wait + Sync>(
    rt: &W,
    alloc: Global,
    workers: &str,
    last: &str,
    facts: &str,
) -> Result<bool, NoMemory> {
    let text = replaced(alloc, TRANSCRIPT, LAST_STEP, last)?;
    outputs_match_for_workers(rt, alloc, &CHECKED, workers, &text, facts)
}

// Returns the last step of the first row that has a fact which is not true.
fn first_untrue_last<'a, W: Threads + Wait + Sync>(
    rt: &W,
    alloc: Global,
    table: &[(&str, &'a str, &str)],
) -> Result<Option<&'a str>, NoMemory> {
    for &(workers, last, facts) in table {
        if !leaves_last(rt, alloc, workers, last, facts)? {
            return Ok(Some(last));
        }
    }
    Ok(None)
}

const TWO: &str = "{\"kind\":\"cdcl\",\"budget\":1},{\"kind\":\"cdcl\",\"budget\":1}";

const WALK_TOO: &str =
    "{\"kind\":\"walk\",\"budget\":1,\"seed\":7},{\"kind\":\"cdcl\",\"budget\":1}";

const LAST: &[(&str, &str, &str)] = &[
    (
        ONE_LINE,
        "undecided 2 3 1\nlines 0 1\n13 -1 0 7 2 8 3 12 0\n",
        "status 1; said: facility,outcome,round,price\n1,exit,2,0\n2,exit,1,0\n3,undecided,2,60\n; tests: 1.1 fits, 1.2 fits, 1.3 fits, 2.1 fits, 2.3 open after 1 line; total: 60",
    ),
    (
        TWO,
        "undecided 2 3 2\nlines 0 1\n13 -1 0 7 2 8 3 12 0\nlines 1 1\n13 -1 0 7 2 8 3 12 0\n",
        "status 1; said: facility,outcome,round,price\n1,exit,2,0\n2,exit,1,0\n3,undecided,2,60\n; tests: 1.1 fits, 1.2 fits, 1.3 fits, 2.1 fits, 2.3 open after 1 line + 1 line",
    ),
    // An undecided step needs a receipt from each worker, in order of worker.
    (
        TWO,
        "undecided 2 3 2\nlines 0 1\n13 -1 0 7 2 8 3 12 0\nlines 0 1\n13 -1 0 7 2 8 3 12 0\n",
        "status 9; said: tr.txt: line 14: bad line\n; no record",
    ),
    (
        TWO,
        "undecided 2 3 1\nlines 0 1\n13 -1 0 7 2 8 3 12 0\n",
        "status 9; said: tr.txt: line 11: bad line\n; no record",
    ),
    // A receipt's lines are numbered after the clauses, are as many as the budget, follow, and are new.
    (
        ONE_LINE,
        "undecided 2 3 1\nlines 0 1\n14 -1 0 7 2 8 3 12 0\n",
        "status 9; said: tr.txt: step 5: not valid\n; no record",
    ),
    (
        ONE_LINE,
        "undecided 2 3 1\nlines 0 0\n",
        "status 9; said: tr.txt: step 5: not valid\n; no record",
    ),
    (
        ONE_LINE,
        "undecided 2 3 1\nlines 0 1\n13 -1 0 7 2 8 3 11 0\n",
        "status 9; said: tr.txt: step 5: not valid\n; no record",
    ),
    (
        ONE_LINE,
        "undecided 2 3 1\nlines 0 1\n13 1 2 0 1 0\n",
        "status 9; said: tr.txt: step 5: not valid\n; no record",
    ),
    // A proof has more lines than the budget.
    (
        ONE_LINE,
        LAST_STEP,
        "status 9; said: tr.txt: step 5: not valid\n; no record",
    ),
    // A walk's receipt has moves, not lines. Each move takes a station of a violated pair to another channel.
    (
        WALK_TOO,
        "undecided 2 3 2\nmoves 0 1\nmove 3 15\nlines 1 1\n13 -1 0 7 2 8 3 12 0\n",
        "status 1; said: facility,outcome,round,price\n1,exit,2,0\n2,exit,1,0\n3,undecided,2,60\n; tests: 1.1 fits, 1.2 fits, 1.3 fits, 2.1 fits, 2.3 open after 1 move + 1 line",
    ),
    (
        WALK_TOO,
        "undecided 2 3 2\nmoves 0 1\nmove 3 14\nlines 1 1\n13 -1 0 7 2 8 3 12 0\n",
        "status 9; said: tr.txt: step 5: not valid\n; no record",
    ),
    (
        WALK_TOO,
        "undecided 2 3 2\nmoves 0 1\nmove 1 14\nlines 1 1\n13 -1 0 7 2 8 3 12 0\n",
        "status 9; said: tr.txt: step 5: not valid\n; no record",
    ),
    (
        WALK_TOO,
        "undecided 2 3 2\nlines 0 1\n13 -1 0 7 2 8 3 12 0\nlines 1 1\n13 -1 0 7 2 8 3 12 0\n",
        "status 9; said: tr.txt: step 5: not valid\n; no record",
    ),
    (
        WALK_TOO,
        LAST_STEP,
        "status 9; said: tr.txt: step 5: not valid\n; no record",
    ),
];

#[test]
fn undecided_tests_have_receipts(rt: HostRuntime) -> Result<(), Fail> {
    assert_eq!(rt; first_untrue_last(&rt, rt.alloc(), LAST)?, None);
    Ok(())
}
