//! Results of resumed auctions.

use super::scene::{ResumeRow, first_untrue, outputs_match};
use crate::scenes::change::Change;
use crate::scenes::stations::TRANSCRIPT;
use std::alloc::{AllocError as NoMemory, Global};
use std::sync::Wait;
use std::test::Fail;
use std::thread::Threads;

// The transcript of the three stations, ending with a test that two workers left undecided.
const LEFT_OPEN: &str =
    "transcript 1\nstart empty\nfit 1 1 1\nat 1 14\nfit 1 2 1\nat 2 14\nfit 1 3 1\nat 3 15\nfit 2 1 1\nat 1 15\nundecided 2 3 2\nlines 0 1\n13 -1 0 7 2 8 3 12 0\nmoves 1 1\nmove 3 15\n";

// The expected facts of the three stations.
const SETTLED: &str =
    "status 0; said: stations 3\non-air 2\nfrozen 1\nundecided 0\ntotal 60\n; out.csv: facility,outcome,round,price\n1,exit,2,0\n2,exit,1,0\n3,frozen,2,60\n; a record; goes on; inputs kept";

// Beginnings of their transcript.
const PLAIN: &[ResumeRow] = &[
    // Nothing, a part of a line, the first line, and the first line with the start.
    ("", "transcript 2\n", Change::Nothing, SETTLED),
    ("transcr", "transcript 2\n", Change::Nothing, SETTLED),
    (
        "transcript 1\n",
        "transcript 1\nstart empty\n",
        Change::Nothing,
        SETTLED,
    ),
    (
        "transcript 2\nstart empty\n",
        "transcript 2\nstart empty\nfit 1 1 1\n",
        Change::Nothing,
        "status 0; asked from query 1; goes on",
    ),
    // The fourth step is incomplete.
    (
        "transcript 1\nstart empty\nfit 1 1 1\nat 1 14\nfit 1 2 1\nat 2 14\nfit 1 3 1\nat 3 15\nfit 2 1 1\n",
        "transcript 1\nstart empty\nfit 1 1 1\nat 1 14\nfit 1 2 1\nat 2 14\nfit 1 3 1\nat 3 15\nfit 2 1 1\nat 1 15\n",
        Change::Nothing,
        SETTLED,
    ),
    (
        "transcript 1\nstart empty\nfit 1 1 1\nat 1 14\nfit 1 2 1\nat 2 14\nfit 1 3 1\nat 3 15\nfit 2 1 1\n",
        "transcript 1\n",
        Change::Nothing,
        "asked from query 4",
    ),
    // Channels that no run would choose are kept.
    (
        "transcript 1\nstart empty\nfit 1 1 1\nat 1 15\nfit 1 2",
        "transcript 1\nstart empty\nfit 1 1 1\nat 1 15\nfit 1 2 1\n",
        Change::Nothing,
        "status 0; asked from query 2; goes on",
    ),
    // The complete transcript, and the complete transcript followed by a part of a line.
    (TRANSCRIPT, TRANSCRIPT, Change::Nothing, SETTLED),
    (
        "transcript 1\nstart empty\nfit 1 1 1\nat 1 14\nfit 1 2 1\nat 2 14\nfit 1 3 1\nat 3 15\nfit 2 1 1\nat 1 15\nlog 2 3 0 2\non 1 2 3\n13 -1 0 7 2 8 3 12 0\n14 0 13 1 9 2 10 3 11 0\nend 5\nx",
        "",
        Change::Nothing,
        "nothing asked; tr.txt: transcript 1\nstart empty\nfit 1 1 1\nat 1 14\nfit 1 2 1\nat 2 14\nfit 1 3 1\nat 3 15\nfit 2 1 1\nat 1 15\nlog 2 3 0 2\non 1 2 3\n13 -1 0 7 2 8 3 12 0\n14 0 13 1 9 2 10 3 11 0\nend 5\n; chan.csv: facility,channel\n1,15\n2,14\n",
    ),
    // An outside proof is kept.
    (
        "transcript 1\nstart empty\nfit 1 1 1\nat 1 14\nfit 1 2 1\nat 2 14\nfit 1 3 1\nat 3 15\nfit 2 1 1\nat 1 15\noutside 2 3 2\n13 -1 0 7 2 8 3 12 0\n14 0 13 1 9 2 10 3 11 0\n",
        "transcript 1\nstart empty\nfit 1 1 1\nat 1 14\nfit 1 2 1\nat 2 14\nfit 1 3 1\nat 3 15\nfit 2 1 1\nat 1 15\noutside 2 3 2\n13 -1 0 7 2 8 3 12 0\n14 0 13 1 9 2 10 3 11 0\nend 5\n",
        Change::Nothing,
        SETTLED,
    ),
    // A file or the sink fails. The program reads domains, rows and the beginning in pieces: the call that opens the file, a piece, and
    // an empty piece. It loads the scenario in one call. After that it stores the outputs.
    (
        TRANSCRIPT,
        "",
        Change::Missing("p.txt"),
        "status 3; said: cannot read p.txt\n; no out.csv; no chan.csv; no tr.txt; no record; inputs kept",
    ),
    (
        TRANSCRIPT,
        "",
        Change::Call(7),
        "status 3; said: cannot read plain\n; no record",
    ),
    (
        TRANSCRIPT,
        "",
        Change::Call(8),
        "status 3; said: cannot read p.txt\n; no record; no out.csv",
    ),
    (
        TRANSCRIPT,
        "",
        Change::Call(9),
        "status 3; said: cannot read p.txt\n; no record; no out.csv",
    ),
    (
        TRANSCRIPT,
        "",
        Change::Call(10),
        "status 3; said: cannot read p.txt\n; no record; no out.csv",
    ),
    // An invalid transcript is reported only after the whole file is read.
    (
        "transcript 3\n",
        "",
        Change::Call(10),
        "status 3; said: cannot read p.txt\n; no record; no out.csv",
    ),
    (
        TRANSCRIPT,
        "",
        Change::Call(12),
        "status 4; said: cannot write chan.csv\n; a record; no chan.csv; no tr.txt; out.csv: facility,outcome,round,price\n1,exit,2,0\n2,exit,1,0\n3,frozen,2,60\n",
    ),
    (
        TRANSCRIPT,
        TRANSCRIPT,
        Change::Write(1),
        "status 4; nothing said; a record; goes on",
    ),
];

// Beginnings that `resume` rejects.
const REFUSED: &[ResumeRow] = &[
    (
        "transcript 3\n",
        "",
        Change::Nothing,
        "status 9; said: p.txt: version\n; no record; no out.csv; no chan.csv; no tr.txt; nothing asked; inputs kept",
    ),
    (
        "transcript 1\nstart empty\nfat\n",
        "",
        Change::Nothing,
        "status 9; said: p.txt: line 3: bad line\n; no record",
    ),
    (
        "transcript 1\nstart empty\nend 1\n",
        "",
        Change::Nothing,
        "status 9; said: p.txt: line 3: bad line\n; no record",
    ),
    (
        "transcript 1\nstart empty\nfit 1 2 1\nat 1 14\n",
        "",
        Change::Nothing,
        "status 9; said: p.txt: step 1: order\n; no record; no tr.txt",
    ),
    (
        "transcript 1\nstart empty\nfit 1 1 1\nat 1 14\nend 1\n",
        "",
        Change::Nothing,
        "status 9; said: p.txt: step 2: order\n; no record",
    ),
    (
        "transcript 1\nstart empty\nfit 1 1 1\nat 1 16\n",
        "",
        Change::Nothing,
        "status 9; said: p.txt: step 1: not valid\n; no record",
    ),
    (
        "transcript 1\nstart fit 0\n",
        "",
        Change::Nothing,
        "status 9; said: p.txt: step 0: not valid\n; no record",
    ),
    // One worker's receipt does not certify a test that two workers left undecided.
    (
        "transcript 1\nstart empty\nfit 1 1 1\nat 1 14\nfit 1 2 1\nat 2 14\nfit 1 3 1\nat 3 15\nfit 2 1 1\nat 1 15\nundecided 2 3 1\nlines 0 1\n13 -1 0 7 2 8 3 12 0\n",
        "",
        Change::Nothing,
        "status 9; said: p.txt: step 5: not valid\n; no record",
    ),
];

#[test]
fn auctions_go_on(rt: HostRuntime) -> Result<(), Fail> {
    let alloc = rt.alloc();
    assert_eq!(rt; first_untrue(&rt, alloc, "plain", PLAIN)?, None);
    assert_eq!(rt; first_untrue(&rt, alloc, "plain", REFUSED)?, None);
    Ok(())
}

// Station 3 is tested last in the order of numbers, and first in the order of volume.
const VOLUME: &[ResumeRow] = &[
    (
        "transcript 1\n",
        "transcript 1\nstart empty\nfit 1 1 1\n",
        Change::Nothing,
        "status 0; out.csv: facility,outcome,round,price\n1,exit,2,0\n2,exit,1,0\n3,frozen,2,120\n; goes on",
    ),
    (
        "transcript 1",
        "transcript 2\nstart empty\nfit 1 3 1\n",
        Change::Nothing,
        "status 0; out.csv: facility,outcome,round,price\n1,exit,2,0\n2,exit,1,0\n3,frozen,3,40\n; goes on",
    ),
    (
        "transcript 2\nstart empty\nfit 1 3 1\nat 3 15\nfit 1 1 1\nat 1 14\n",
        "transcript 2\nstart empty\nfit 1 3 1\nat 3 15\nfit 1 1 1\nat 1 14\nfit 1 2 1\n",
        Change::Nothing,
        "status 0; out.csv: facility,outcome,round,price\n1,exit,2,0\n2,exit,1,0\n3,frozen,3,40\n; asked from query 3; goes on",
    ),
    (
        "transcript 2\nstart empty\nfit 1 1 1\nat 1 14\n",
        "",
        Change::Nothing,
        "status 9; said: p.txt: step 1: order\n; no record",
    ),
];

// Station 2 starts on air, and the third test has the same set as one round before.
const HIGH: &[ResumeRow] = &[
    (
        "transcript 1\nstart fit 1\n",
        "transcript 1\nstart fit 1\n",
        Change::Nothing,
        "status 0; asked from query 1; goes on; out.csv: facility,outcome,round,price\n1,exit,2,0\n2,start,0,0\n3,frozen,2,60\n",
    ),
    (
        "transcript 1\nstart fit 1\nat 2 14\nfit 1 1 1\nat 1 15\nfit 1 3 1\nat 3 15\nsame 2 1\n",
        "transcript 1\nstart fit 1\nat 2 14\nfit 1 1 1\nat 1 15\nfit 1 3 1\nat 3 15\nsame 2 1\nlog 2 3 0 ",
        Change::Nothing,
        "status 0; asked from query 4; goes on; out.csv: facility,outcome,round,price\n1,exit,2,0\n2,start,0,0\n3,frozen,2,60\n",
    ),
    (
        "transcript 1\nstart empty\n",
        "",
        Change::Nothing,
        "status 9; said: p.txt: step 0: not valid\n; no record",
    ),
];

// The start set does not fit. In the second table its test is undecided.
const UNFIT: &[ResumeRow] = &[
    (
        "transcript 1\n",
        "",
        Change::Nothing,
        "status 6; said: the start set does not fit\n; no out.csv; no chan.csv; no tr.txt; a record; inputs kept",
    ),
    (
        "transcript 2\nstart fit 3\nat 1 14\nat 2 15\nat 3 14\n",
        "",
        Change::Nothing,
        "status 9; said: p.txt: step 0: not valid\n; no record",
    ),
];

const OPEN: &[ResumeRow] = &[(
    "",
    "",
    Change::Nothing,
    "status 7; said: the start set is undecided\n; no out.csv; no chan.csv; no tr.txt; a record",
)];

#[test]
fn other_auctions_go_on(rt: HostRuntime) -> Result<(), Fail> {
    let alloc = rt.alloc();
    assert_eq!(rt; first_untrue(&rt, alloc, "volume", VOLUME)?, None);
    assert_eq!(rt; first_untrue(&rt, alloc, "high", HIGH)?, None);
    assert_eq!(rt; first_untrue(&rt, alloc, "unfit", UNFIT)?, None);
    assert_eq!(rt; first_untrue(&rt, alloc, "open", OPEN)?, None);
    Ok(())
}

// The same two workers left the last test undecided. The resumed run asks no query.
const BY_TWO: &[ResumeRow] = &[(
    LEFT_OPEN,
    LEFT_OPEN,
    Change::Nothing,
    "status 1; said: stations 3\non-air 2\nfrozen 1\nundecided 1\ntotal 60\n; out.csv: facility,outcome,round,price\n1,exit,2,0\n2,exit,1,0\n3,undecided,2,60\n; nothing asked; goes on",
)];

// A worker with a budget of one line leaves the last test undecided if the beginning lacks it. The worker's budget does not
// certify a proof of two lines.
const BY_ONE: &[ResumeRow] = &[
    (
        "transcript 1\nstart empty\nfit 1 1 1\nat 1 14\nfit 1 2 1\nat 2 14\nfit 1 3 1\nat 3 15\nfit 2 1 1\nat 1 15\n",
        "transcript 1\nstart empty\nfit 1 1 1\nat 1 14\nfit 1 2 1\nat 2 14\nfit 1 3 1\nat 3 15\nfit 2 1 1\nat 1 15\nundecided 2 3 1\nlines 0 1\n",
        Change::Nothing,
        "status 1; asked from query 5; goes on",
    ),
    (
        TRANSCRIPT,
        "",
        Change::Nothing,
        "status 9; said: p.txt: step 5: not valid\n; no record",
    ),
];

#[test]
fn by_other_workers(rt: HostRuntime) -> Result<(), Fail> {
    let alloc = rt.alloc();
    assert_eq!(rt; first_untrue(&rt, alloc, "two", BY_TWO)?, None);
    assert_eq!(rt; first_untrue(&rt, alloc, "short", BY_ONE)?, None);
    Ok(())
}

// The parts of the three stations' transcript, each of which is kept only if it is complete.
const PARTS: &[&str] = &[
    "transcript 1\n",
    "start empty\n",
    "fit 1 1 1\nat 1 14\n",
    "fit 1 2 1\nat 2 14\n",
    "fit 1 3 1\nat 3 15\n",
    "fit 2 1 1\nat 1 15\n",
    "log 2 3 0 2\non 1 2 3\n13 -1 0 7 2 8 3 12 0\n14 0 13 1 9 2 10 3 11 0\n",
    "end 5\n",
];

// Returns how many of the first `end` bytes are kept.
fn kept_of(end: usize) -> usize {
    let mut kept: usize = 0;
    for part in PARTS {
        let more = kept.saturating_add(part.len());
        if more > end {
            return kept;
        }
        kept = more;
    }
    kept
}

// Returns the first length of a cut of the three stations' transcript after which `resume` is wrong. It is wrong if the result differs,
// or if the new transcript does not begin with the kept part.
fn first_otherwise<W: Threads + Wait + Sync>(
    rt: &W,
    alloc: Global,
    text: &str,
) -> Result<Option<usize>, NoMemory> {
    let line = "repack resume d.csv r.csv plain p.txt out.csv chan.csv tr.txt";
    for end in 0..text.len() {
        let (Some(prefix), Some(kept)) = (text.get(..end), text.get(..kept_of(end))) else {
            return Ok(Some(end));
        };
        if !outputs_match(rt, alloc, line, prefix, kept, Change::Nothing, SETTLED)? {
            return Ok(Some(end));
        }
    }
    Ok(None)
}

#[test]
fn wherever_it_is_cut(rt: HostRuntime) -> Result<(), Fail> {
    assert_eq!(rt; first_otherwise(&rt, rt.alloc(), TRANSCRIPT)?, None);
    Ok(())
}

#[test]
fn words_of_a_resumption(rt: HostRuntime) -> Result<(), Fail> {
    let alloc = rt.alloc();
    let few = "repack resume d.csv r.csv plain p.txt out.csv chan.csv";
    let none = "status 2; no out.csv; no record; nothing asked";
    assert!(rt; outputs_match(&rt, alloc, few, "", "", Change::Nothing, none)?);
    let same = "repack resume d.csv r.csv plain p.txt out.csv chan.csv p.txt";
    let twice = "status 5; said: p.txt: given twice\n; no out.csv; inputs kept; no record";
    assert!(rt; outputs_match(&rt, alloc, same, "", "", Change::Nothing, twice)?);
    Ok(())
}
