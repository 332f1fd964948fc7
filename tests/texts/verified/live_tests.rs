//! Verifying transcripts of live auctions: the owners' answers decide whether a step is valid, and values are ignored.

use crate::samples::books::three_stations;
use crate::samples::owners::{
    ALL_STAY, AS_BID, FIRST_LEAVES, FIRST_STAYS, SECOND_DECLINES, SaidLines, owners_of_lines,
};
use crate::samples::scenarios::three_bids_by_one;
use crate::texts::verified::samples::{
    APART, KIND, ORDER, Row, SOUND, STATION_3, is_as_said, misjudged,
};
use crate::texts::complete_texts::{SECOND_ON_AIR, THREE_STATIONS};
use pack_defs::book::Book;
use pack_defs::owners::Owners;
use pack_defs::scenario::Scenario;
use std::alloc::{AllocError as NoMemory, Global};
use std::test::Fail;
use transcript_check::VerifyErr;
use transcript_check::verify::verify_live;
use transcript_text::TextErr;
use transcript_text::read::read_transcript;

// Returns the error that `verify_live` finds in a text, in the live auction of these owners.
fn found(
    alloc: Global,
    sc: &Scenario,
    book: &Book,
    owners: &Owners,
    text: &[u8],
) -> Result<Option<VerifyErr>, TextErr> {
    let transcript = read_transcript(alloc, text, sc, book)?;
    match verify_live(alloc, book, sc, owners, transcript) {
        Ok(_) => Ok(None),
        Err(e) => Ok(Some(e)),
    }
}

// Checks whether verification with these answers has the outcome of the row.
fn is_found(
    alloc: Global,
    sc: &Scenario,
    book: &Book,
    lines: SaidLines,
    row: Row<'_>,
) -> Result<bool, NoMemory> {
    let owners = owners_of_lines(alloc, lines)?;
    let Ok(found) = found(alloc, sc, book, &owners, row.0) else {
        return Ok(false);
    };
    Ok(is_as_said(found, row))
}

// Returns the index of the first row with another outcome.
fn misjudged_live(
    alloc: Global,
    sc: &Scenario,
    book: &Book,
    rows: &[(SaidLines, Row<'_>)],
) -> Result<Option<usize>, NoMemory> {
    for i in 0..rows.len() {
        let (lines, row) = rows[i];
        if !is_found(alloc, sc, book, lines, row)? {
            return Ok(Some(i));
        }
    }
    Ok(None)
}

// The same decisions as `AS_BID`, but station 2 answers that it leaves.
const AS_BID_ALOUD: SaidLines = &[
    (0, 1, true),
    (1, 1, true),
    (0, 2, true),
    (1, 2, false),
    (0, 3, true),
    (1, 3, true),
    (2, 3, true),
];

// The same, but station 1 leaves in round 1 too.
const FIRST_TWO_LEAVE: SaidLines = &[
    (0, 1, true),
    (0, 2, true),
    (0, 3, true),
    (1, 3, true),
    (2, 3, true),
];

// A transcript in which station 1 stays in each round, so that its last test comes after the last fall.
const BEHIND_THE_LAST_FALL: &[u8] =
    b"transcript 1\nstart empty\nfit 1 1 1\nat 1 14\nfit 1 2 1\nat 2 14\nfit 1 3 1\nat 3 15\nfit 2 1 1\nat 1 15\nsame 2 3\nlog 3 1 0 2\non 1 2 3\n13 -1 0 7 2 8 3 12 0\n14 0 13 1 9 2 10 3 11 0\nend 6\n";

// The owners' answers, and a text with its first invalid step and the cause.
const LIVE: &[(SaidLines, Row)] = &[
    (AS_BID, (THREE_STATIONS, 0, SOUND)),
    (AS_BID_ALOUD, (THREE_STATIONS, 0, SOUND)),
    (FIRST_TWO_LEAVE, (THREE_STATIONS, 2, APART)),
    (
        FIRST_LEAVES,
        (
            b"transcript 1\nstart empty\nfit 1 1 1\nat 1 14\nfit 1 2 1\nat 2 15\nfit 1 3 1\nat 3 15\nsame 2 2\nlog 2 3 0 2\non 1 2 3\n13 -1 0 7 2 8 3 12 0\n14 0 13 1 9 2 10 3 11 0\nend 5\n",
            0,
            SOUND,
        ),
    ),
    (
        FIRST_LEAVES,
        (
            b"transcript 1\nstart empty\nfit 1 1 1\nat 1 14\nfit 1 2 1\nat 2 15\nfit 1 3 1\nat 3 15\nfit 2 1 1\nat 1 14\nend 4\n",
            4,
            ORDER,
        ),
    ),
    (SECOND_DECLINES, (SECOND_ON_AIR, 0, SOUND)),
    (SECOND_DECLINES, (THREE_STATIONS, 0, KIND)),
    (FIRST_STAYS, (BEHIND_THE_LAST_FALL, 0, SOUND)),
    (
        FIRST_STAYS,
        (
            b"transcript 1\nstart empty\nfit 1 1 1\nat 1 14\nfit 1 2 1\nat 2 14\nfit 1 3 1\nat 3 15\nfit 2 1 1\nat 1 15\nsame 2 3\nend 5\n",
            6,
            ORDER,
        ),
    ),
    (FIRST_STAYS, (THREE_STATIONS, 5, KIND)),
    (
        ALL_STAY,
        (
            b"transcript 2\nstart empty\nfit 1 1 1\nat 1 14\nfit 1 2 1\nat 2 14\nfit 1 3 1\nat 3 14\nsame 2 1\nsame 2 2\nsame 2 3\nsame 3 1\nfit 3 2 1\nat 2 15\nlog 3 3 0 2\non 1 2 3\n13 -1 0 7 2 8 3 12 0\n14 0 13 1 9 2 10 3 11 0\nend 9\n",
            0,
            SOUND,
        ),
    ),
    (&[], (THREE_STATIONS, 0, KIND)),
    (
        &[],
        (
            b"transcript 1\nstart fit 2\nat 1 14\nat 2 15\nend 0\n",
            0,
            STATION_3,
        ),
    ),
];

// The owners' answers decide, both with values of 50, 70 and 10 cents and with values of 50, 101 and 10 cents.
#[test]
fn owners_are_in_the_record(rt: HostRuntime) -> Result<(), Fail> {
    let alloc = rt.alloc();
    let book = three_stations(alloc)?;
    let sc = three_bids_by_one(alloc, 70, 1, 1000)?;
    assert_eq!(rt; misjudged_live(alloc, &sc, &book, LIVE)?, None);
    let other = three_bids_by_one(alloc, 101, 1, 1000)?;
    assert_eq!(rt; misjudged_live(alloc, &other, &book, LIVE)?, None);
    Ok(())
}

// Transcripts of live auctions, with their first invalid step if values decide.
const BY_VALUE: &[Row] = &[(BEHIND_THE_LAST_FALL, 5, KIND), (SECOND_ON_AIR, 0, KIND)];

#[test]
fn values_say_otherwise(rt: HostRuntime) -> Result<(), Fail> {
    let alloc = rt.alloc();
    let book = three_stations(alloc)?;
    let sc = three_bids_by_one(alloc, 70, 1, 1000)?;
    assert_eq!(rt; misjudged(alloc, &sc, &sc, &book, b"", BY_VALUE)?, None);
    Ok(())
}
