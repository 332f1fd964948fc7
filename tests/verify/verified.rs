//! `verify` on transcripts that are valid, or whose text is rejected.

use crate::scenes::change::{Change, replaced};
use crate::scenes::scene::{RUN, Scene, first_untrue, first_untrue_change, outputs_match, verifies};
use crate::scenes::stations::{MANY_LINES, ONE_LINE, TRANSCRIPT, VERIFY};
use std::alloc::{AllocError as NoMemory, Global};
use std::sync::Wait;
use std::test::Fail;
use std::thread::Threads;

// `verify` on the transcript of the three stations.
pub const CHECKED: Scene<'static> = Scene {
    command: VERIFY,
    transcript: Some(TRANSCRIPT),
    ..RUN
};

/// Checks whether `verify` on the scene, with this part of the three stations' transcript replaced, has these facts.
pub fn leaves_changed<W: Threads + Wait + Sync>(
    rt: &W,
    alloc: Global,
    scene: &Scene<'_>,
    part: &str,
    other: &str,
    facts: &str,
) -> Result<bool, NoMemory> {
    let text = replaced(alloc, TRANSCRIPT, part, other)?;
    let changed = Scene {
        transcript: Some(&text),
        ..*scene
    };
    outputs_match(rt, alloc, &changed, facts)
}

/// Returns the replacement of the first row that has a fact which is not true of the changed transcript.
pub fn first_untrue_text<'a, W: Threads + Wait + Sync>(
    rt: &W,
    alloc: Global,
    scene: &Scene<'_>,
    table: &[(&str, &'a str, &str)],
) -> Result<Option<&'a str>, NoMemory> {
    for &(part, other, facts) in table {
        if !leaves_changed(rt, alloc, scene, part, other, facts)? {
            return Ok(Some(other));
        }
    }
    Ok(None)
}

// A part of the transcript, its replacement, and the expected facts.
const TEXTS: &[(&str, &str, &str)] = &[
    (
        "",
        "",
        "status 0; said: facility,outcome,round,price\n1,exit,2,0\n2,exit,1,0\n3,frozen,2,60\n; ending: done; tests: 1.1 fits, 1.2 fits, 1.3 fits, 2.1 fits, 2.3 refuted by 0; map: 1 on 15, 2 on 14; total: 60; no out.csv; no chan.csv; inputs kept",
    ),
    // With equal volumes both orders of the tests are the same.
    (
        "transcript 1",
        "transcript 2",
        "status 0; said: facility,outcome,round,price\n1,exit,2,0\n2,exit,1,0\n3,frozen,2,60\n; a record; inputs kept",
    ),
    (
        "transcript 1",
        "transcript 3",
        "status 9; said: tr.txt: version\n; no record; inputs kept",
    ),
    (
        "14 0 13 1 9 2 10 3 11 0\nend 5\n",
        "14 0 13",
        "status 9; said: tr.txt: truncated\n; no record; inputs kept",
    ),
    (
        "at 1 15",
        "at 1 52",
        "status 9; said: tr.txt: line 10: bad line\n; no record; inputs kept",
    ),
    (
        "end 5",
        "end 4",
        "status 9; said: tr.txt: line 15: bad line\n; no record; inputs kept",
    ),
    // The transcript has exactly the tests of the rule, in its order.
    (
        "fit 1 1 1\nat 1 14\n",
        "fit 1 2 1\nat 2 14\n",
        "status 9; said: tr.txt: step 1: order\n; no record; inputs kept",
    ),
    (
        "log 2 3 0 2\non 1 2 3\n13 -1 0 7 2 8 3 12 0\n14 0 13 1 9 2 10 3 11 0\nend 5\n",
        "end 4\n",
        "status 9; said: tr.txt: step 5: order\n; no record; inputs kept",
    ),
    (
        "end 5",
        "log 2 3 0 2\non 1 2 3\n13 -1 0 7 2 8 3 12 0\n14 0 13 1 9 2 10 3 11 0\nend 6",
        "status 9; said: tr.txt: step 6: order\n; no record; inputs kept",
    ),
    // An outside proof belongs to no worker.
    (
        "log 2 3 0 2\non 1 2 3\n",
        "outside 2 3 2\n",
        "status 0; said: facility,outcome,round,price\n1,exit,2,0\n2,exit,1,0\n3,frozen,2,60\n; tests: 1.1 fits, 1.2 fits, 1.3 fits, 2.1 fits, 2.3 refuted from outside",
    ),
];

#[test]
fn texts_are_verified(rt: HostRuntime) -> Result<(), Fail> {
    assert_eq!(rt; first_untrue_text(&rt, rt.alloc(), &CHECKED, TEXTS)?, None);
    Ok(())
}

// The transcript of the three stations in order of volume, where station 3 has the greatest.
const BY_VOLUME: &str =
    "transcript 2\nstart empty\nfit 1 3 1\nat 3 14\nfit 1 1 1\nat 1 14\nfit 1 2 1\nat 2 14\nfit 2 3 1\nat 3 15\nfit 2 1 1\nat 1 15\nlog 3 3 0 2\non 1 2 3\n13 -1 0 7 2 8 3 12 0\n14 0 13 1 9 2 10 3 11 0\nend 6\n";

// Station 2 starts on air, and the second test of station 1 has the same set as its first.
const AIR_TRANSCRIPT: &str =
    "transcript 1\nstart fit 1\nat 2 14\nfit 1 1 1\nat 1 15\nfit 1 3 1\nat 3 15\nsame 2 1\nlog 2 3 0 2\non 1 2 3\n13 -1 0 7 2 8 3 12 0\n14 0 13 1 9 2 10 3 11 0\nend 4\n";

/// `verify` on a transcript of one station whose only channel is above the top channel.
pub const ONE: Scene<'static> = Scene {
    domains: "DOMAIN,1,40\n",
    rows: "",
    clock: "\"top\":36,\"opening\":100,\"decrements\":[]",
    stations: "{\"id\":1,\"volume\":1,\"value\":5}",
    transcript: Some("transcript 1\nstart empty\nnone 1 1\nend 1\n"),
    ..CHECKED
};

const VOLUME: Change<'static> = Change::Part("\"id\":3,\"volume\":1", "\"id\":3,\"volume\":2");

const ON_AIR: Change<'static> = Change::Part("\"value\":70", "\"value\":101");

const BY_FACILITY: Scene<'static> = Scene {
    change: VOLUME,
    ..CHECKED
};

const IN_TURN: Scene<'static> = Scene {
    transcript: Some(BY_VOLUME),
    ..BY_FACILITY
};

/// `verify` on the transcript in which station 2 starts on air.
pub const FROM_AIR: Scene<'static> = Scene {
    transcript: Some(AIR_TRANSCRIPT),
    change: ON_AIR,
    ..CHECKED
};

// The transcript belongs to another scenario.
const UNLIKE: Scene<'static> = Scene {
    change: Change::Part("\"value\":10", "\"value\":61"),
    ..CHECKED
};

const UNLIKE_START: Scene<'static> = Scene {
    change: ON_AIR,
    ..CHECKED
};

const NOBODY: Scene<'static> = Scene {
    stations: "",
    transcript: Some("transcript 2\nstart empty\nend 0\n"),
    ..CHECKED
};

const OTHER_AUCTIONS: &[(Scene<'static>, &str)] = &[
    (
        BY_FACILITY,
        "status 0; said: facility,outcome,round,price\n1,exit,2,0\n2,exit,1,0\n3,frozen,2,120\n; total: 120",
    ),
    (
        IN_TURN,
        "status 0; said: facility,outcome,round,price\n1,exit,2,0\n2,exit,1,0\n3,frozen,3,40\n; tests: 1.3 fits, 1.1 fits, 1.2 fits, 2.3 fits, 2.1 fits, 3.3 refuted by 0; total: 40",
    ),
    (
        FROM_AIR,
        "status 0; said: facility,outcome,round,price\n1,exit,2,0\n2,start,0,0\n3,frozen,2,60\n; start: fits; tests: 1.1 fits, 1.3 fits, 2.1 as before, 2.3 refuted by 0; map: 1 on 15, 2 on 14",
    ),
    (
        ONE,
        "status 0; said: facility,outcome,round,price\n1,frozen,1,100\n; tests: 1.1 no channel for 1",
    ),
    (
        NOBODY,
        "status 0; said: facility,outcome,round,price\n; tests: none",
    ),
    (
        UNLIKE,
        "status 9; said: tr.txt: step 4: not valid\n; no record",
    ),
    (
        UNLIKE_START,
        "status 9; said: tr.txt: step 0: not valid\n; no record",
    ),
];

#[test]
fn other_auctions_are_verified(rt: HostRuntime) -> Result<(), Fail> {
    assert_eq!(rt; first_untrue(&rt, rt.alloc(), OTHER_AUCTIONS)?, None);
    Ok(())
}

// The transcript's version decides the order: in order of volume, station 3 must come first.
#[test]
fn the_order_is_the_transcripts(rt: HostRuntime) -> Result<(), Fail> {
    let scene = Scene {
        change: Change::Part("\"id\":3,\"volume\":1", "\"id\":3,\"volume\":2"),
        ..CHECKED
    };
    let facts = "status 9; said: tr.txt: step 1: order\n; no record";
    assert!(rt;
        leaves_changed(
            &rt,
            rt.alloc(),
            &scene,
            "transcript 1",
            "transcript 2",
            facts
        )?
    );
    Ok(())
}

// Changes of `verify` on the three stations' transcript, and the expected facts.
const CHANGES: &[(Change<'static>, &str)] = &[
    (
        Change::Missing("d.csv"),
        "status 3; said: cannot read d.csv\n; no record",
    ),
    (
        Change::Missing("r.csv"),
        "status 3; said: cannot read r.csv\n; no record",
    ),
    (
        Change::Missing("s.json"),
        "status 3; said: cannot read s.json\n; no record",
    ),
    (
        Change::Missing("tr.txt"),
        "status 3; said: cannot read tr.txt\n; no record; nothing stored",
    ),
    // The program reads domains, rows and the transcript in pieces: the call that opens the file, a piece, and an empty piece. It loads
    // the scenario in one call.
    (
        Change::Call(1),
        "status 3; said: cannot read d.csv\n; no out.csv; no chan.csv; no record; inputs kept; faults: 1",
    ),
    (
        Change::Call(2),
        "status 3; said: cannot read d.csv\n; no out.csv; no chan.csv; no record; inputs kept; faults: 1",
    ),
    (
        Change::Call(3),
        "status 3; said: cannot read d.csv\n; no out.csv; no chan.csv; no record; inputs kept; faults: 1",
    ),
    (
        Change::Call(4),
        "status 3; said: cannot read r.csv\n; no out.csv; no chan.csv; no record; inputs kept; faults: 1",
    ),
    (
        Change::Call(5),
        "status 3; said: cannot read r.csv\n; no out.csv; no chan.csv; no record; inputs kept; faults: 1",
    ),
    (
        Change::Call(6),
        "status 3; said: cannot read r.csv\n; no out.csv; no chan.csv; no record; inputs kept; faults: 1",
    ),
    (
        Change::Call(7),
        "status 3; said: cannot read s.json\n; no out.csv; no chan.csv; no record; inputs kept; faults: 1",
    ),
    (
        Change::Call(8),
        "status 3; said: cannot read tr.txt\n; no out.csv; no chan.csv; no record; inputs kept; faults: 1",
    ),
    (
        Change::Call(9),
        "status 3; said: cannot read tr.txt\n; no out.csv; no chan.csv; no record; inputs kept; faults: 1",
    ),
    (
        Change::Call(10),
        "status 3; said: cannot read tr.txt\n; no out.csv; no chan.csv; no record; inputs kept; faults: 1",
    ),
    // An invalid transcript is reported only after the whole file is read.
    (
        Change::Stops("tr.txt", "transcript 3\n", 10),
        "status 3; said: cannot read tr.txt\n; no record; faults: 1",
    ),
    // Nothing is read or stored after the transcript.
    (
        Change::Call(11),
        "status 0; said: facility,outcome,round,price\n1,exit,2,0\n2,exit,1,0\n3,frozen,2,60\n; faults: 0",
    ),
    (
        Change::Holds("s.json", "{}"),
        "status 5; said: s.json: missing version\n; no record",
    ),
    (
        Change::Garbled("tr.txt"),
        "status 9; said: tr.txt: version\n; no record",
    ),
    (
        Change::Write(1),
        "status 4; nothing said; a record; ending: done; total: 60; inputs kept",
    ),
    // The status is the same if the line that reports the error cannot be written.
    (
        Change::Mute(1),
        "status 3; nothing said; no out.csv; no chan.csv; no record; inputs kept; faults: 1",
    ),
    // The result is a single write, and write 2 never happens.
    (
        Change::Write(2),
        "status 0; said: facility,outcome,round,price\n1,exit,2,0\n2,exit,1,0\n3,frozen,2,60\n; a record",
    ),
];

#[test]
fn a_file_or_the_sink_fails(rt: HostRuntime) -> Result<(), Fail> {
    assert_eq!(rt;
        first_untrue_change(&rt, rt.alloc(), &CHECKED, CHANGES)?,
        None
    );
    Ok(())
}

// Returns the workers of the first row whose own run does not verify with these facts.
fn first_unverified<'a, W: Threads + Wait + Sync>(
    rt: &W,
    alloc: Global,
    table: &[(&'a str, &str)],
) -> Result<Option<&'a str>, NoMemory> {
    for &(workers, facts) in table {
        let scene = Scene { workers, ..RUN };
        if !verifies(rt, alloc, &scene, facts)? {
            return Ok(Some(workers));
        }
    }
    Ok(None)
}

const OWN_RUNS: &[(&str, &str)] = &[
    (
        MANY_LINES,
        "status 0; said: facility,outcome,round,price\n1,exit,2,0\n2,exit,1,0\n3,frozen,2,60\n; out.csv: facility,outcome,round,price\n1,exit,2,0\n2,exit,1,0\n3,frozen,2,60\n; tests: 1.1 fits, 1.2 fits, 1.3 fits, 2.1 fits, 2.3 refuted by 0; total: 60",
    ),
    (
        ONE_LINE,
        "status 1; said: facility,outcome,round,price\n1,exit,2,0\n2,exit,1,0\n3,undecided,2,60\n; out.csv: facility,outcome,round,price\n1,exit,2,0\n2,exit,1,0\n3,undecided,2,60\n; tests: 1.1 fits, 1.2 fits, 1.3 fits, 2.1 fits, 2.3 open after 1 line; total: 60",
    ),
];

#[test]
fn a_run_is_verified(rt: HostRuntime) -> Result<(), Fail> {
    assert_eq!(rt; first_unverified(&rt, rt.alloc(), OWN_RUNS)?, None);
    Ok(())
}
