//! Files, output and status of `make`.

use crate::scenes::change::Change;
use crate::scenes::scene::{RUN, Scene, first_untrue, first_untrue_change, outputs_match, run};
use std::alloc::{AllocError as NoMemory, Global};
use std::sync::Wait;
use std::test::Fail;
use std::thread::Threads;

const ONE: &str = "repack make 7 1 d.csv r.csv s.json";

const MANY: &str = "repack make 7 256 d.csv r.csv s.json";

// One station in an empty folder.
const BARE: Scene<'static> = Scene {
    command: ONE,
    change: Change::Channelless,
    ..RUN
};

// The numbers may have a plus sign and leading zeros.
const SPELLED: Scene<'static> = Scene {
    command: "repack make +7 001 d.csv r.csv s.json",
    ..BARE
};

// The names of the domains and of the rows are swapped.
const TURNED: Scene<'static> = Scene {
    command: "repack make 7 1 r.csv d.csv s.json",
    ..BARE
};

const TWICE: Scene<'static> = Scene {
    command: "repack make 7 1 d.csv d.csv s.json",
    ..BARE
};

const FAR: Scene<'static> = Scene {
    command: "repack make 7 1 s.json r.csv s.json",
    ..BARE
};

// A number that equals a file name is not given twice.
const NUMBERS: Scene<'static> = Scene {
    command: "repack make 7 1 7 1 s.json",
    ..BARE
};

const ONE_STATION: &[(Scene<'static>, &str)] = &[
    (
        BARE,
        "status 0; said: stations 1\non-air 1\nfrozen 0\nundecided 0\ntotal 0\n; d.csv: DOMAIN,1,14,15,16,17\n; r.csv: ; s.json: {\"decrements\":[10,10,10,10,10,10,10,10,10,10],\"opening\":100,\"stations\":[{\"id\":1,\"value\":21581,\"volume\":450}],\"top\":17,\"version\":1,\"workers\":[{\"budget\":100000,\"kind\":\"cdcl\",\"seed\":0},{\"budget\":1000,\"kind\":\"walk\",\"seed\":7}]}; nothing stored; a record; ending: done; start: empty; on air: 1; total: 0",
    ),
    (
        SPELLED,
        "status 0; said: stations 1\non-air 1\nfrozen 0\nundecided 0\ntotal 0\n; d.csv: DOMAIN,1,14,15,16,17\n; r.csv: ",
    ),
    (TURNED, "status 0; d.csv: ; r.csv: DOMAIN,1,14,15,16,17\n"),
    (
        TWICE,
        "status 5; said: d.csv: given twice\n; no d.csv; no s.json; no record",
    ),
    (
        FAR,
        "status 5; said: s.json: given twice\n; no r.csv; no s.json; no record",
    ),
    (NUMBERS, "status 0; no d.csv; no r.csv; a record"),
];

#[test]
fn one_station_is_generated(rt: HostRuntime) -> Result<(), Fail> {
    assert_eq!(rt; first_untrue(&rt, rt.alloc(), ONE_STATION)?, None);
    Ok(())
}

// The files of these names already exist.
const OVER_OLD: Scene<'static> = Scene {
    command: ONE,
    domains: "old domains",
    rows: "old rows",
    ..RUN
};

const FAULTS: &[(Change<'static>, &str)] = &[
    (
        Change::Call(1),
        "status 4; said: cannot write d.csv\n; d.csv: old domains; r.csv: old rows; inputs kept; no record; faults: 1",
    ),
    (
        Change::Call(2),
        "status 4; said: cannot write r.csv\n; d.csv: DOMAIN,1,14,15,16,17\n; r.csv: old rows; no record; faults: 1",
    ),
    (
        Change::Call(3),
        "status 4; said: cannot write s.json\n; d.csv: DOMAIN,1,14,15,16,17\n; r.csv: ; no record; faults: 1",
    ),
    // The generated files are not loaded again.
    (
        Change::Call(4),
        "status 0; d.csv: DOMAIN,1,14,15,16,17\n; r.csv: ; a record; faults: 0",
    ),
    // The files are stored before the summary is written.
    (
        Change::Write(1),
        "status 4; nothing said; d.csv: DOMAIN,1,14,15,16,17\n; r.csv: ; inputs changed; a record; ending: done; on air: 1",
    ),
    // The status is the same if the line that reports the error cannot be written.
    (
        Change::Mute(1),
        "status 4; nothing said; r.csv: old rows; no record; faults: 1",
    ),
    // The summary is a single write, and write 2 never happens.
    (
        Change::Write(2),
        "status 0; said: stations 1\non-air 1\nfrozen 0\nundecided 0\ntotal 0\n",
    ),
];

#[test]
fn the_folder_or_the_sink_fails(rt: HostRuntime) -> Result<(), Fail> {
    assert_eq!(rt;
        first_untrue_change(&rt, rt.alloc(), &OVER_OLD, FAULTS)?,
        None
    );
    Ok(())
}

// Returns the first of these pairs of numbers that `make` accepts, in an empty folder.
fn first_taken<'a, W: Threads + Wait + Sync>(
    rt: &W,
    alloc: Global,
    numbers: &[&'a str],
) -> Result<Option<&'a str>, NoMemory> {
    for &pair in numbers {
        let command = format!(in alloc; "repack make {pair} d.csv r.csv s.json")?;
        let scene = Scene {
            command: &command,
            ..BARE
        };
        if !outputs_match(
            rt,
            alloc,
            &scene,
            "status 2; something said; no d.csv; no record",
        )? {
            return Ok(Some(pair));
        }
    }
    Ok(None)
}

const OUT_OF_BOUNDS: &[&str] = &[
    "7 0",
    "7 4097",
    "18446744073709551616 1",
    "-7 1",
    "7 -1",
    "x 1",
    "7 1.0",
    "7",
];

#[test]
fn numbers_out_of_their_bounds_are_refused(rt: HostRuntime) -> Result<(), Fail> {
    assert_eq!(rt; first_taken(&rt, rt.alloc(), OUT_OF_BOUNDS)?, None);
    Ok(())
}

// Returns the status and the output of a generated auction of many stations.
fn many_generated_text<W: Threads + Wait + Sync>(rt: &W, alloc: Global) -> Result<String, NoMemory> {
    let scene = Scene {
        command: MANY,
        ..BARE
    };
    let printed = run(rt, alloc, &scene)?;
    let (said, _) = printed.split_once("; nothing stored").unwrap_or(("", ""));
    String::from_str(alloc, said)
}

#[test]
fn generation_is_repeatable(rt: HostRuntime) -> Result<(), Fail> {
    let first = many_generated_text(&rt, rt.alloc())?;
    let second = many_generated_text(&rt, rt.alloc())?;
    assert!(rt; first.starts_with("status 0; something said; said: stations 256\n"));
    assert!(rt; first == second);
    Ok(())
}
