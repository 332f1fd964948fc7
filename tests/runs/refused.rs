//! `run` and `check` reject invalid inputs, each with one line.

use crate::scenes::change::Change;
use crate::scenes::scene::{RUN, Scene, are_refused, first_untrue_words, outputs_match};
use crate::scenes::stations::{CHECK, domain_rows};
use std::alloc::{AllocError as NoMemory, Global};
use std::sync::Wait;
use std::test::Fail;
use std::thread::Threads;

// Returns the line of the first row whose change of the inputs is not rejected with that line.
fn first_accepted<'a, W: Threads + Wait + Sync>(
    rt: &W,
    alloc: Global,
    table: &[(Change<'_>, &'a str)],
) -> Result<Option<&'a str>, NoMemory> {
    for &(change, line) in table {
        let scene = Scene { change, ..RUN };
        if !are_refused(rt, alloc, scene, line)? {
            return Ok(Some(line));
        }
    }
    Ok(None)
}

// Changes of the inputs, and the line that reports each. `bad_files` has more.
const REFUSED: &[(Change<'static>, &str)] = &[
    (
        Change::Holds("d.csv", "\nDOMAINS,1,14\n"),
        "d.csv: line 2: unknown key\n",
    ),
    (
        Change::Holds("d.csv", "DOMAIN,1,14\nDOMAIN,x,14\n"),
        "d.csv: line 2: bad number\n",
    ),
    (
        Change::Holds("d.csv", "DOMAIN,1,14\nDOMAIN,1,15\n"),
        "d.csv: line 2: second domain row\n",
    ),
    (
        Change::Holds("d.csv", ""),
        "d.csv: no domain row for station 1\n",
    ),
    (
        Change::Holds("d.csv", "DOMAIN,1,14\nDOMAIN,3,14\n"),
        "d.csv: no domain row for station 2\n",
    ),
    (
        Change::Holds("r.csv", "CO,14,14,1,2\nXO,14,14,1,2\n"),
        "r.csv: line 2: unknown key\n",
    ),
    (
        Change::Holds("r.csv", "CO,14,14,1,100000000000000000000000000000\n"),
        "r.csv: line 1: bad number\n",
    ),
    (
        Change::Holds("r.csv", "CO,1,1,1,2\n"),
        "r.csv: line 1: channel out of range\n",
    ),
    (
        Change::Holds("r.csv", "ADJ+1,14,16,1,2\n"),
        "r.csv: line 1: channels do not fit the key\n",
    ),
    (
        Change::Part("\"version\":1,", ""),
        "s.json: missing version\n",
    ),
    (
        Change::Part("\"top\":15", "\"top\":\"15\""),
        "s.json: wrong kind top\n",
    ),
    (
        Change::Part("\"opening\":100", "\"opening\":0"),
        "s.json: out of limit opening\n",
    ),
    (
        Change::Part("[40,40]", "[40,0]"),
        "s.json: out of limit decrements at 2\n",
    ),
    (
        Change::Part("[40,40]", "[60,41]"),
        "s.json: decrements exceed the opening\n",
    ),
    (
        Change::Part("\"cdcl\"", "\"walker\""),
        "s.json: out of limit kind at 1\n",
    ),
    (
        Change::Part("\"id\":2", "\"id\":1"),
        "s.json: repeated station 1\n",
    ),
    (
        Change::Part("{\"id\":1,\"volume\":1,", "{\"id\":1,\"volume\":1000001,"),
        "s.json: out of limit volume at 1\n",
    ),
    (
        Change::Part("\"value\":50", "\"value\":100000000000000000000000000000"),
        "s.json: wrong kind value at 1\n",
    ),
    (Change::Part("{\"id\":3,", "{"), "s.json: missing id at 3\n"),
    // Bytes that are not UTF-8.
    (Change::Garbled("d.csv"), "d.csv: line 1: unknown key\n"),
    (Change::Garbled("r.csv"), "r.csv: line 1: short row\n"),
    (Change::Garbled("s.json"), "s.json: not JSON\n"),
];

#[test]
fn inputs_are_refused(rt: HostRuntime) -> Result<(), Fail> {
    assert_eq!(rt; first_accepted(&rt, rt.alloc(), REFUSED)?, None);
    Ok(())
}

// Checks whether `check` on `count` stations has these facts.
fn outputs_match_for<W: Threads + Wait + Sync>(
    rt: &W,
    alloc: Global,
    count: u32,
    facts: &str,
) -> Result<bool, NoMemory> {
    let domains = domain_rows(alloc, count)?;
    let scene = Scene {
        command: CHECK,
        domains: &domains,
        rows: "",
        ..RUN
    };
    outputs_match(rt, alloc, &scene, facts)
}

#[test]
fn too_many_domains_are_refused(rt: HostRuntime) -> Result<(), Fail> {
    let facts = "status 5; said: d.csv: line 65537: too many\n; nothing stored; no record";
    assert!(rt; outputs_match_for(&rt, rt.alloc(), 65_537, facts)?);
    Ok(())
}

const GIVEN_TWICE: &[(&str, &str)] = &[
    (
        "repack run d.csv r.csv s.json d.csv chan.csv tr.txt",
        "status 5; said: d.csv: given twice\n; nothing stored; no record",
    ),
    (
        "repack run d.csv r.csv s.json out.csv out.csv tr.txt",
        "status 5; said: out.csv: given twice\n; nothing stored; no record",
    ),
    (
        "repack run d.csv r.csv s.json out.csv chan.csv chan.csv",
        "status 5; said: chan.csv: given twice\n; nothing stored; no record",
    ),
    (
        "repack run d.csv r.csv s.json out.csv chan.csv s.json",
        "status 5; said: s.json: given twice\n; nothing stored; no record",
    ),
    (
        "repack run d.csv r.csv s.json tr.txt s.json tr.txt",
        "status 5; said: tr.txt: given twice\n; nothing stored; no record",
    ),
    // Names are compared before any file is read.
    (
        "repack run a b c d d e",
        "status 5; said: d: given twice\n; nothing stored; no record",
    ),
    // Two different names of the same file are accepted.
    (
        "repack run d.csv r.csv s.json out.csv ./out.csv tr.txt",
        "status 0",
    ),
];

#[test]
fn output_names_given_twice_are_refused(rt: HostRuntime) -> Result<(), Fail> {
    assert_eq!(rt; first_untrue_words(&rt, rt.alloc(), GIVEN_TWICE)?, None);
    Ok(())
}
