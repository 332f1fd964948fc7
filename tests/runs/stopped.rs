//! Results of a run whose folder or sink fails, and of words that are no command.

use crate::scenes::change::Change;
use crate::scenes::scene::{RUN, Scene, first_untrue_change, outputs_match};
use crate::scenes::stations::CHECK;
use std::alloc::{AllocError as NoMemory, Global};
use std::sync::Wait;
use std::test::Fail;
use std::thread::Threads;

// Changes of the run on the three stations, and the expected facts.
const RUN_STOPPED: &[(Change<'static>, &str)] = &[
    // The program reads domains and rows in pieces: the call that opens the file, a piece, and an empty piece. It loads the scenario in
    // one call.
    (
        Change::Call(1),
        "status 3; said: cannot read d.csv\n; nothing stored; no record; inputs kept; faults: 1",
    ),
    (
        Change::Call(2),
        "status 3; said: cannot read d.csv\n; nothing stored; no record; inputs kept; faults: 1",
    ),
    (
        Change::Call(3),
        "status 3; said: cannot read d.csv\n; nothing stored; no record; inputs kept; faults: 1",
    ),
    (
        Change::Call(4),
        "status 3; said: cannot read r.csv\n; nothing stored; no record; inputs kept; faults: 1",
    ),
    (
        Change::Call(5),
        "status 3; said: cannot read r.csv\n; nothing stored; no record; inputs kept; faults: 1",
    ),
    (
        Change::Call(6),
        "status 3; said: cannot read r.csv\n; nothing stored; no record; inputs kept; faults: 1",
    ),
    (
        Change::Call(7),
        "status 3; said: cannot read s.json\n; nothing stored; no record; inputs kept; faults: 1",
    ),
    // Then the program stores each output in one call. The first failure ends the run.
    (
        Change::Call(8),
        "status 4; said: cannot write out.csv\n; nothing stored; a record; faults: 1",
    ),
    (
        Change::Call(9),
        "status 4; said: cannot write chan.csv\n; out.csv: facility,outcome,round,price\n1,exit,2,0\n2,exit,1,0\n3,frozen,2,60\n; no chan.csv; no tr.txt; inputs kept; a record; faults: 1",
    ),
    (
        Change::Call(10),
        "status 4; said: cannot write tr.txt\n; out.csv: facility,outcome,round,price\n1,exit,2,0\n2,exit,1,0\n3,frozen,2,60\n; channels of the map; no tr.txt; inputs kept; a record; faults: 1",
    ),
    (Change::Call(11), "status 0; tr.txt ends: end 5; faults: 0"),
    // Outputs of an earlier run: those stored before the failure have new texts, and the others keep the old ones.
    (
        Change::Over("old", 7),
        "status 3; said: cannot read s.json\n; out.csv: old; chan.csv: old; tr.txt: old; inputs kept; no record; faults: 1",
    ),
    (
        Change::Over("old", 8),
        "status 4; said: cannot write out.csv\n; chan.csv: old; tr.txt: old; inputs kept; a record; faults: 1",
    ),
    (
        Change::Over("old", 9),
        "status 4; said: cannot write chan.csv\n; out.csv: facility,outcome,round,price\n1,exit,2,0\n2,exit,1,0\n3,frozen,2,60\n; tr.txt: old; inputs kept; a record; faults: 1",
    ),
    (
        Change::Over("old", 10),
        "status 4; said: cannot write tr.txt\n; out.csv: facility,outcome,round,price\n1,exit,2,0\n2,exit,1,0\n3,frozen,2,60\n; channels of the map; inputs kept; a record; faults: 1",
    ),
    // Nothing is read after an invalid line.
    (
        Change::Stops("d.csv", "DOMAIN,1,x\n", 3),
        "status 5; said: d.csv: line 1: bad number\n; nothing stored; no record; faults: 0",
    ),
    (
        Change::Missing("r.csv"),
        "status 3; said: cannot read r.csv\n; nothing stored",
    ),
    // The outputs are stored before the summary is written.
    (
        Change::Write(1),
        "status 4; nothing said; out.csv: facility,outcome,round,price\n1,exit,2,0\n2,exit,1,0\n3,frozen,2,60\n; channels of the map; tr.txt begins: transcript 2, start empty; tr.txt ends: end 5; a record",
    ),
    // The status is the same if the line that reports the error cannot be written.
    (
        Change::Mute(1),
        "status 3; nothing said; nothing stored; no record; inputs kept; faults: 1",
    ),
    // The summary is a single write, and write 2 never happens.
    (
        Change::Write(2),
        "status 0; said: stations 3\non-air 2\nfrozen 1\nundecided 0\ntotal 60\n",
    ),
];

// Changes of `check` on the same files, and the expected facts.
const CHECK_STOPPED: &[(Change<'static>, &str)] = &[
    (
        Change::Call(1),
        "status 3; said: cannot read d.csv\n; nothing stored; no record; inputs kept; faults: 1",
    ),
    (
        Change::Call(2),
        "status 3; said: cannot read d.csv\n; nothing stored; no record; inputs kept; faults: 1",
    ),
    (
        Change::Call(3),
        "status 3; said: cannot read d.csv\n; nothing stored; no record; inputs kept; faults: 1",
    ),
    (
        Change::Call(4),
        "status 3; said: cannot read r.csv\n; nothing stored; no record; inputs kept; faults: 1",
    ),
    (
        Change::Call(5),
        "status 3; said: cannot read r.csv\n; nothing stored; no record; inputs kept; faults: 1",
    ),
    (
        Change::Call(6),
        "status 3; said: cannot read r.csv\n; nothing stored; no record; inputs kept; faults: 1",
    ),
    (
        Change::Call(7),
        "status 3; said: cannot read s.json\n; nothing stored; no record; inputs kept; faults: 1",
    ),
    // Nothing is read after the scenario.
    (
        Change::Call(8),
        "status 0; said: stations 3\npairs 6\nself-pairs 0\nstrangers 0\n; nothing stored; faults: 0",
    ),
    (
        Change::Mute(1),
        "status 3; nothing said; nothing stored; no record; inputs kept; faults: 1",
    ),
    (
        Change::Write(1),
        "status 4; nothing said; nothing stored; no record",
    ),
    // The counts are a single write, and write 2 never happens.
    (
        Change::Write(2),
        "status 0; said: stations 3\npairs 6\nself-pairs 0\nstrangers 0\n",
    ),
];

#[test]
fn the_folder_or_the_sink_fails(rt: HostRuntime) -> Result<(), Fail> {
    assert_eq!(rt;
        first_untrue_change(&rt, rt.alloc(), &RUN, RUN_STOPPED)?,
        None
    );
    let check = Scene {
        command: CHECK,
        ..RUN
    };
    assert_eq!(rt;
        first_untrue_change(&rt, rt.alloc(), &check, CHECK_STOPPED)?,
        None
    );
    Ok(())
}

// Returns the first of these lines that is a command, in an empty folder.
fn first_command<'a, W: Threads + Wait + Sync>(
    rt: &W,
    alloc: Global,
    lines: &[&'a str],
) -> Result<Option<&'a str>, NoMemory> {
    for &line in lines {
        let scene = Scene {
            command: line,
            change: Change::Channelless,
            ..RUN
        };
        if !outputs_match(rt, alloc, &scene, "status 2; something said; no record")? {
            return Ok(Some(line));
        }
    }
    Ok(None)
}

const NO_COMMANDS: &[&str] = &[
    "",
    "repack",
    "repack run d.csv r.csv s.json out.csv chan.csv",
    "repack check d.csv r.csv s.json out.csv chan.csv tr.txt",
    "repack run d.csv r.csv s.json out.csv chan.csv tr.txt more",
    "repack verify d.csv r.csv s.json",
    "repack --help",
    "repack --version",
    "repack help check",
];

#[test]
fn the_words_are_no_command(rt: HostRuntime) -> Result<(), Fail> {
    assert_eq!(rt; first_command(&rt, rt.alloc(), NO_COMMANDS)?, None);
    Ok(())
}
