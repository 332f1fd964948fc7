//! Results of `live` and `verify-live`.

use crate::scenes::change::Change;
use crate::scenes::scene::{RUN, Scene, first_untrue, outputs_match, verifies};
use crate::scenes::stations::{
    LIVE, ONE_LINE, OWNERS, THREE, THREE_PLAIN, TRANSCRIPT, TWO_PLAIN, VERIFY, VERIFY_LIVE,
};
use std::alloc::{AllocError as NoMemory, Global};
use std::sync::Wait;
use std::test::Fail;
use std::thread::Threads;

// The three stations without values, and the answers of their owners.
const SAID: Scene<'static> = Scene {
    command: LIVE,
    stations: THREE_PLAIN,
    owners: Some(OWNERS),
    ..RUN
};

// Stations 1 and 2 leave in round 1, and station 3 stays in every round.
const LEFT_AT_ONCE: &str = "0,1,stay\n0,2,stay\n0,3,stay\n1,3,stay\n2,3,stay\n";

const BY_THE_VALUES: &str =
    "status 0; said: stations 3\non-air 2\nfrozen 1\nundecided 0\ntotal 60\n; out.csv: facility,outcome,round,price\n1,exit,2,0\n2,exit,1,0\n3,frozen,2,60\n; ending: done; tests: 1.1 fits, 1.2 fits, 1.3 fits, 2.1 fits, 2.3 refuted by 0; on air: 1, 2; total: 60; channels of the map; tr.txt begins: transcript 2, start empty; tr.txt ends: end 5; inputs kept";

const AT_ONCE: &str =
    "status 0; said: stations 3\non-air 2\nfrozen 1\nundecided 0\ntotal 100\n; out.csv: facility,outcome,round,price\n1,exit,1,0\n2,exit,1,0\n3,frozen,1,100\n; tests: 1.1 fits, 1.2 fits, 1.3 refuted by 0";

const TWO: Scene<'static> = Scene {
    stations: TWO_PLAIN,
    ..SAID
};

const AUCTIONS: &[(Scene<'static>, &str)] = &[
    (SAID, BY_THE_VALUES),
    // The result depends on the answers and not on the values.
    (
        Scene {
            stations: THREE,
            ..SAID
        },
        BY_THE_VALUES,
    ),
    (
        Scene {
            owners: Some(LEFT_AT_ONCE),
            ..SAID
        },
        AT_ONCE,
    ),
    (
        Scene {
            stations: THREE,
            owners: Some(LEFT_AT_ONCE),
            ..SAID
        },
        AT_ONCE,
    ),
    // A station without a line at the opening price is on air from the start.
    (
        Scene {
            owners: Some("0,1,stay\n1,1,stay\n0,3,stay\n1,3,stay\n2,3,stay"),
            ..SAID
        },
        "status 0; said: stations 3\non-air 2\nfrozen 1\nundecided 0\ntotal 60\n; out.csv: facility,outcome,round,price\n1,exit,2,0\n2,start,0,0\n3,frozen,2,60\n; start: fits; tests: 1.1 fits, 1.3 fits, 2.1 as before, 2.3 refuted by 0; tr.txt begins: transcript 2, start fit 1; tr.txt ends: end 4",
    ),
    (
        Scene {
            owners: Some(""),
            ..TWO
        },
        "status 0; said: stations 2\non-air 2\nfrozen 0\nundecided 0\ntotal 0\n; out.csv: facility,outcome,round,price\n1,start,0,0\n2,start,0,0\n; start: fits; tests: none",
    ),
    (
        Scene {
            owners: Some(""),
            stations: THREE,
            ..SAID
        },
        "status 6; said: the start set does not fit\n; nothing stored; ending: start refuted; inputs kept",
    ),
    // A station that stays in every round goes on air in the last one.
    (
        Scene {
            owners: Some("0,1,stay\n2,1,stay\n1,1,stay\n0,2,stay\n"),
            ..TWO
        },
        "status 0; out.csv: facility,outcome,round,price\n1,exit,3,0\n2,exit,1,0\n; tests: 1.1 fits, 1.2 fits, 2.1 fits, 3.1 as before",
    ),
    // A station that has left does not come back.
    (
        Scene {
            owners: Some("0,1,stay\n1,1,leave\n2,1,stay\n0,2,stay\n2,2,stay\n"),
            ..TWO
        },
        "status 0; out.csv: facility,outcome,round,price\n1,exit,1,0\n2,exit,1,0\n; tests: 1.1 fits, 1.2 fits",
    ),
    // No worker decides one test.
    (
        Scene {
            workers: ONE_LINE,
            ..SAID
        },
        "status 1; out.csv: facility,outcome,round,price\n1,exit,2,0\n2,exit,1,0\n3,undecided,2,60\n; tests: 1.1 fits, 1.2 fits, 1.3 fits, 2.1 fits, 2.3 open after 1 line",
    ),
];

#[test]
fn live_auctions_are_settled(rt: HostRuntime) -> Result<(), Fail> {
    assert_eq!(rt; first_untrue(&rt, rt.alloc(), AUCTIONS)?, None);
    Ok(())
}

// Invalid owners' files, and the line that reports each.
const REFUSED: &[(&str, &str)] = &[
    ("0,1,stay\n1,1\n", "w.csv: line 2: not three fields\n"),
    ("0,1,stay,1", "w.csv: line 1: not three fields\n"),
    ("0,1,stay\n\n-1,1,stay\n", "w.csv: line 3: bad number\n"),
    ("0,one,stay\n", "w.csv: line 1: bad number\n"),
    (
        "2,1,stay\n3,1,stay\n",
        "w.csv: line 2: round out of range\n",
    ),
    ("0,4,stay\n", "w.csv: line 1: unknown station\n"),
    ("1,1,maybe\n", "w.csv: line 1: bad word\n"),
    (
        "0,1,stay\n1,1,stay\n0,1,leave\n",
        "w.csv: line 3: repeated\n",
    ),
];

// Returns the line of the first owners' file that `live` or `verify-live` does not reject with that line.
fn first_accepted<'a, W: Threads + Wait + Sync>(
    rt: &W,
    alloc: Global,
    table: &[(&str, &'a str)],
) -> Result<Option<&'a str>, NoMemory> {
    for &(owners, line) in table {
        let facts = format!(in alloc;
            "status 5; said: {line}; nothing stored; no record; inputs kept"
        )?;
        for command in [LIVE, VERIFY_LIVE] {
            let scene = Scene {
                command,
                owners: Some(owners),
                ..SAID
            };
            if !outputs_match(rt, alloc, &scene, &facts)? {
                return Ok(Some(line));
            }
        }
    }
    Ok(None)
}

#[test]
fn owners_are_refused(rt: HostRuntime) -> Result<(), Fail> {
    assert_eq!(rt; first_accepted(&rt, rt.alloc(), REFUSED)?, None);
    Ok(())
}

const BAD: Scene<'static> = Scene {
    owners: Some("1,1,maybe\n"),
    ..SAID
};

const ORDER_OF_READING: &[(Scene<'static>, &str)] = &[
    (
        Scene {
            owners: None,
            ..SAID
        },
        "status 3; said: cannot read w.csv\n; nothing stored; no record",
    ),
    (
        Scene {
            change: Change::Call(8),
            ..SAID
        },
        "status 3; said: cannot read w.csv\n; nothing stored; no record; faults: 1",
    ),
    // The owners' file is read after the book and before a transcript.
    (
        Scene {
            domains: "DOMAIN,1,14\nDOMAIN,2,14\n",
            ..BAD
        },
        "status 5; said: d.csv: no domain row for station 3\n; no record",
    ),
    (
        Scene {
            change: Change::Missing("s.json"),
            ..BAD
        },
        "status 3; said: cannot read s.json\n; no record",
    ),
    (
        Scene {
            command: VERIFY_LIVE,
            ..BAD
        },
        "status 5; said: w.csv: line 1: bad word\n; no record",
    ),
    (
        Scene {
            command: VERIFY_LIVE,
            ..SAID
        },
        "status 3; said: cannot read tr.txt\n; no record",
    ),
    (
        Scene {
            command: "repack live d.csv r.csv s.json w.csv w.csv chan.csv tr.txt",
            ..SAID
        },
        "status 5; said: w.csv: given twice\n; nothing stored; no record; inputs kept",
    ),
];

#[test]
fn owners_are_read_behind_the_scenario(rt: HostRuntime) -> Result<(), Fail> {
    assert_eq!(rt; first_untrue(&rt, rt.alloc(), ORDER_OF_READING)?, None);
    Ok(())
}

const SHOWN: Scene<'static> = Scene {
    command: VERIFY_LIVE,
    transcript: Some(TRANSCRIPT),
    ..SAID
};

const TRANSCRIPTS: &[(Scene<'static>, &str)] = &[
    (
        SHOWN,
        "status 0; said: facility,outcome,round,price\n1,exit,2,0\n2,exit,1,0\n3,frozen,2,60\n; ending: done; tests: 1.1 fits, 1.2 fits, 1.3 fits, 2.1 fits, 2.3 refuted by 0; map: 1 on 15, 2 on 14; no out.csv; inputs kept",
    ),
    // Station 1 goes on air in round 1, on the channel that the next step gives to station 2.
    (
        Scene {
            owners: Some("0,1,stay\n0,2,stay\n0,3,stay\n1,3,stay\n2,3,stay\n"),
            ..SHOWN
        },
        "status 9; said: tr.txt: step 2: not valid\n; no record; inputs kept",
    ),
    // Station 1 stays in round 2, and the last step's set lacks it.
    (
        Scene {
            owners: Some("0,1,stay\n1,1,stay\n2,1,stay\n0,2,stay\n0,3,stay\n1,3,stay\n2,3,stay\n"),
            ..SHOWN
        },
        "status 9; said: tr.txt: step 5: not valid\n; no record; inputs kept",
    ),
    // `verify` uses the values. The stations have none, and no station takes part.
    (
        Scene {
            command: VERIFY,
            ..SHOWN
        },
        "status 9; said: tr.txt: step 0: not valid\n; no record; inputs kept",
    ),
];

#[test]
fn live_transcripts_are_verified(rt: HostRuntime) -> Result<(), Fail> {
    assert_eq!(rt; first_untrue(&rt, rt.alloc(), TRANSCRIPTS)?, None);
    let own =
        "status 0; said: facility,outcome,round,price\n1,exit,2,0\n2,exit,1,0\n3,frozen,2,60\n; total: 60";
    assert!(rt; verifies(&rt, rt.alloc(), &SAID, own)?);
    Ok(())
}
