//! `show` and `show-live` store the result and the channels that a transcript certifies, and print the summary.

use crate::scenes::change::Change;
use crate::scenes::scene::{RUN, Scene, first_untrue, first_untrue_change};
use crate::scenes::stations::{ONE_LINE, OWNERS, THREE_PLAIN, TRANSCRIPT};
use crate::verify::proofs::LEFT_OPEN;
use crate::verify::verified::{FROM_AIR, ONE, first_untrue_text};
use std::test::Fail;

const SHOW: &str = "repack show d.csv r.csv s.json tr.txt out.csv chan.csv";

const SHOW_LIVE: &str = "repack show-live d.csv r.csv s.json w.csv tr.txt out.csv chan.csv";

// `show` on the transcript of the three stations.
const SHOWN: Scene<'static> = Scene {
    command: SHOW,
    transcript: Some(TRANSCRIPT),
    ..RUN
};

// `show-live` on the same transcript: the owners' answers follow the values.
const SHOWN_LIVE: Scene<'static> = Scene {
    command: SHOW_LIVE,
    stations: THREE_PLAIN,
    owners: Some(OWNERS),
    ..SHOWN
};

// The facts of the three stations, whose channels are in the steps of the transcript.
const SETTLED: &str =
    "status 0; said: stations 3\non-air 2\nfrozen 1\nundecided 0\ntotal 60\n; out.csv: facility,outcome,round,price\n1,exit,2,0\n2,exit,1,0\n3,frozen,2,60\n; chan.csv: facility,channel\n1,15\n2,14\n; no record; no record below; records: none; inputs kept";

const ANSWERS: &[(Scene<'static>, &str)] = &[
    (SHOWN, SETTLED),
    (SHOWN_LIVE, SETTLED),
    // A test is undecided.
    (
        Scene {
            workers: ONE_LINE,
            transcript: Some(LEFT_OPEN),
            ..SHOWN
        },
        "status 1; said: stations 3\non-air 2\nfrozen 1\nundecided 1\ntotal 60\n; out.csv: facility,outcome,round,price\n1,exit,2,0\n2,exit,1,0\n3,undecided,2,60\n; chan.csv: facility,channel\n1,15\n2,14\n; no record; inputs kept",
    ),
    // A station starts on air, and then a station has no channel.
    (
        Scene {
            command: SHOW,
            ..FROM_AIR
        },
        "status 0; said: stations 3\non-air 2\nfrozen 1\nundecided 0\ntotal 60\n; out.csv: facility,outcome,round,price\n1,exit,2,0\n2,start,0,0\n3,frozen,2,60\n; chan.csv: facility,channel\n1,15\n2,14\n; no record; inputs kept",
    ),
    (
        Scene {
            command: SHOW,
            ..ONE
        },
        "status 0; said: stations 1\non-air 0\nfrozen 1\nundecided 0\ntotal 100\n; out.csv: facility,outcome,round,price\n1,frozen,1,100\n; chan.csv: facility,channel\n; no record; inputs kept",
    ),
];

#[test]
fn transcripts_are_shown(rt: HostRuntime) -> Result<(), Fail> {
    assert_eq!(rt; first_untrue(&rt, rt.alloc(), ANSWERS)?, None);
    Ok(())
}

// A part of the transcript, its replacement, and the expected facts.
const FAULTS: &[(&str, &str, &str)] = &[
    (
        "transcript 1",
        "transcript 3",
        "status 9; said: tr.txt: version\n; no out.csv; no chan.csv; no record; inputs kept",
    ),
    (
        "8 3 12 0",
        "8 3 11 0",
        "status 9; said: tr.txt: step 5: not valid\n; no out.csv; no chan.csv; no record; inputs kept",
    ),
];

#[test]
fn a_fault_is_named_and_nothing_stored(rt: HostRuntime) -> Result<(), Fail> {
    assert_eq!(rt; first_untrue_text(&rt, rt.alloc(), &SHOWN, FAULTS)?, None);
    assert_eq!(rt;
        first_untrue_text(&rt, rt.alloc(), &SHOWN_LIVE, FAULTS)?,
        None
    );
    Ok(())
}

// Changes of `show` on the three stations' transcript, and the expected facts.
const CHANGES: &[(Change<'static>, &str)] = &[
    (
        Change::Missing("tr.txt"),
        "status 3; said: cannot read tr.txt\n; nothing stored; no record",
    ),
    (
        Change::Holds("s.json", "{}"),
        "status 5; said: s.json: missing version\n; no out.csv; no chan.csv; no record",
    ),
    // The program reads the inputs and the transcript in ten calls. Then it stores each output in one call.
    (
        Change::Call(10),
        "status 3; said: cannot read tr.txt\n; no out.csv; no chan.csv; no record; inputs kept; faults: 1",
    ),
    (
        Change::Call(11),
        "status 4; said: cannot write out.csv\n; no out.csv; no chan.csv; no record; inputs kept; faults: 1",
    ),
    (
        Change::Call(12),
        "status 4; said: cannot write chan.csv\n; out.csv: facility,outcome,round,price\n1,exit,2,0\n2,exit,1,0\n3,frozen,2,60\n; no chan.csv; no record; inputs kept; faults: 1",
    ),
    (
        Change::Call(13),
        "status 0; chan.csv: facility,channel\n1,15\n2,14\n; faults: 0",
    ),
    // The summary is a single write, after the stores.
    (
        Change::Write(1),
        "status 4; nothing said; out.csv: facility,outcome,round,price\n1,exit,2,0\n2,exit,1,0\n3,frozen,2,60\n; chan.csv: facility,channel\n1,15\n2,14\n; no record; inputs kept",
    ),
];

#[test]
fn a_file_or_the_sink_fails(rt: HostRuntime) -> Result<(), Fail> {
    assert_eq!(rt; first_untrue_change(&rt, rt.alloc(), &SHOWN, CHANGES)?, None);
    Ok(())
}

const GIVEN_TWICE: &[(Scene<'static>, &str)] = &[
    (
        Scene {
            command: "repack show d.csv r.csv s.json tr.txt out.csv out.csv",
            ..SHOWN
        },
        "status 5; said: out.csv: given twice\n; no out.csv; no record; inputs kept",
    ),
    (
        Scene {
            command: "repack show d.csv r.csv s.json tr.txt out.csv tr.txt",
            ..SHOWN
        },
        "status 5; said: tr.txt: given twice\n; no out.csv; no record; inputs kept",
    ),
    (
        Scene {
            command: "repack show-live d.csv r.csv s.json w.csv tr.txt w.csv chan.csv",
            ..SHOWN_LIVE
        },
        "status 5; said: w.csv: given twice\n; no chan.csv; no record; inputs kept",
    ),
    // Names are compared before any file is read.
    (
        Scene {
            command: "repack show a b c d e e",
            ..SHOWN
        },
        "status 5; said: e: given twice\n; no record; inputs kept",
    ),
];

#[test]
fn output_names_given_twice_are_refused(rt: HostRuntime) -> Result<(), Fail> {
    assert_eq!(rt; first_untrue(&rt, rt.alloc(), GIVEN_TWICE)?, None);
    Ok(())
}
