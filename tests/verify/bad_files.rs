//! Invalid files, and the line that reports each.

use crate::scenes::change::Change;
use crate::scenes::scene::{RUN, Scene, are_refused, outputs_match};
use crate::scenes::stations::TRANSCRIPT;
use crate::verify::verified::{CHECKED, ONE, leaves_changed};
use std::alloc::{AllocError as NoMemory, Global};
use std::sync::Wait;
use std::test::Fail;
use std::thread::Threads;

// The input of a row, and the commands that read it.
#[derive(Clone, Copy)]
enum Given<'a> {
    // The three stations with this change, for `run` and `check`.
    Inputs(Change<'a>),
    // The transcript of the three stations with the second string in place of the first, for `verify`.
    Steps(&'a str, &'a str),
    // This transcript of one station without a channel, for `verify`.
    OneStep(&'a str),
    // These domains of one station that starts on air, for `run`.
    OnAir(&'a str),
}

// `run` on one station that starts on air.
const STARTED: Scene<'static> = Scene {
    rows: "",
    stations: "{\"id\":1,\"volume\":1}",
    ..RUN
};

// Checks whether `verify` rejects the text with this line.
fn is_text_refused<W: Threads + Wait + Sync>(
    rt: &W,
    alloc: Global,
    scene: &Scene<'_>,
    part: &str,
    other: &str,
    line: &str,
) -> Result<bool, NoMemory> {
    let facts = format!(in alloc;
        "status 9; said: {line}; no out.csv; no chan.csv; no record; inputs kept"
    )?;
    leaves_changed(rt, alloc, scene, part, other, &facts)
}

// Checks whether `run` stores these channels for one station with these domains.
fn is_on_air<W: Threads + Wait + Sync>(
    rt: &W,
    alloc: Global,
    domains: &str,
    channels: &str,
) -> Result<bool, NoMemory> {
    let facts = format!(in alloc; "status 0; start: fits; chan.csv: {channels}; inputs kept")?;
    let scene = Scene { domains, ..STARTED };
    outputs_match(rt, alloc, &scene, &facts)
}

// Checks the answer of a row: the line that reports the invalid file, or the stored channels.
fn is_answered<W: Threads + Wait + Sync>(
    rt: &W,
    alloc: Global,
    given: Given<'_>,
    answer: &str,
) -> Result<bool, NoMemory> {
    match given {
        Given::Inputs(change) => are_refused(rt, alloc, Scene { change, ..RUN }, answer),
        Given::Steps(part, other) => is_text_refused(rt, alloc, &CHECKED, part, other, answer),
        Given::OneStep(text) => is_text_refused(rt, alloc, &ONE, TRANSCRIPT, text, answer),
        Given::OnAir(domains) => is_on_air(rt, alloc, domains, answer),
    }
}

// Returns the answer of the first row that gets another answer.
fn first_unanswered<'a, W: Threads + Wait + Sync>(
    rt: &W,
    alloc: Global,
    table: &[(Given<'_>, &'a str)],
) -> Result<Option<&'a str>, NoMemory> {
    for &(given, answer) in table {
        if !is_answered(rt, alloc, given, answer)? {
            return Ok(Some(answer));
        }
    }
    Ok(None)
}

const BAD_FILES: &[(Given<'static>, &str)] = &[
    (
        Given::Inputs(Change::Holds("d.csv", "DOMAIN\n")),
        "d.csv: line 1: short row\n",
    ),
    (
        Given::Inputs(Change::Holds("d.csv", "domain,1,14\n")),
        "d.csv: line 1: unknown key\n",
    ),
    (
        Given::Inputs(Change::Holds("d.csv", "DOMAIN,1,4294967296\n")),
        "d.csv: line 1: bad number\n",
    ),
    (
        Given::Inputs(Change::Holds("d.csv", "DOMAIN,1,52\n")),
        "d.csv: line 1: channel out of range\n",
    ),
    (
        Given::Inputs(Change::Holds("d.csv", "DOMAIN,1,14\nDOMAIN,01,15\n")),
        "d.csv: line 2: second domain row\n",
    ),
    // A field in quotes and a line that ends in 0D 0A are valid.
    (
        Given::OnAir("DOMAIN,\"1\",14\r\n"),
        "facility,channel\n1,14\n",
    ),
    // The number of fields is checked before the key.
    (
        Given::Inputs(Change::Holds("r.csv", "FOO,x\n")),
        "r.csv: line 1: short row\n",
    ),
    (
        Given::Inputs(Change::Holds("r.csv", "CO,14,14\n")),
        "r.csv: line 1: short row\n",
    ),
    (
        Given::Inputs(Change::Holds("r.csv", "CO,x,14,1,2\n")),
        "r.csv: line 1: bad number\n",
    ),
    (
        Given::Inputs(Change::Holds("r.csv", "ADJ-1,2,1,1,2\n")),
        "r.csv: line 1: channel out of range\n",
    ),
    (
        Given::Inputs(Change::Holds("r.csv", "CO,14,15,1\n")),
        "r.csv: line 1: channels do not fit the key\n",
    ),
    // The scenario without its last byte.
    (
        Given::Inputs(Change::Part("}]}", "}]")),
        "s.json: not JSON\n",
    ),
    (
        Given::Inputs(Change::Holds("s.json", "[]")),
        "s.json: wrong kind scenario\n",
    ),
    (
        Given::Inputs(Change::Part("\"top\":15", "\"top\":13")),
        "s.json: out of limit top\n",
    ),
    (
        Given::Inputs(Change::Part("[{\"kind\":\"cdcl\",\"budget\":1000}]", "[]")),
        "s.json: out of limit workers\n",
    ),
    (
        Given::Inputs(Change::Part("\"id\":1,\"volume\":1,", "\"id\":1,\"volume\":-1,")),
        "s.json: wrong kind volume at 1\n",
    ),
    (
        Given::Inputs(Change::Part("\"id\":1,\"volume\":1,", "\"id\":1,\"volume\":1.5,")),
        "s.json: wrong kind volume at 1\n",
    ),
    (
        Given::Inputs(Change::Part("\"cdcl\"", "\"walk\"")),
        "s.json: no cdcl worker\n",
    ),
    (Given::Steps(TRANSCRIPT, ""), "tr.txt: truncated\n"),
    (
        Given::Steps(TRANSCRIPT, "transcript 9\n"),
        "tr.txt: version\n",
    ),
    (
        Given::OneStep("transcript 1\nstart empty\nnone 1 1\nend 2\n"),
        "tr.txt: line 4: bad line\n",
    ),
    (
        Given::OneStep("transcript 1\nstart empty\nnone 1 1\nend 1\nx"),
        "tr.txt: line 5: bad line\n",
    ),
    (
        Given::Steps("fit 1 1 1", "fit 1 1 1000001"),
        "tr.txt: line 3: bad line\n",
    ),
    (
        Given::Steps(
            "fit 1 3 1\nat 3 15\nfit 2 1 1\nat 1 15\nlog 2 3 0 2\non 1 2 3\n13 -1 0 7 2 8 3 12 0\n14 0 13 1 9 2 10 3 11 0\nend 5\n",
            "fit 2 1 1\nat 1 15\nlog 2 3 0 2\non 1 2 3\n13 -1 0 7 2 8 3 12 0\n14 0 13 1 9 2 10 3 11 0\nend 4\n",
        ),
        "tr.txt: step 3: order\n",
    ),
    (
        Given::Steps("13 -1 0 7 2 8 3 12 0", "13 -1 0 2 7 8 3 12 0"),
        "tr.txt: step 5: not valid\n",
    ),
];

#[test]
fn bad_files_are_answered(rt: HostRuntime) -> Result<(), Fail> {
    assert_eq!(rt; first_unanswered(&rt, rt.alloc(), BAD_FILES)?, None);
    Ok(())
}
