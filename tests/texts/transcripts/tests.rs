//! Writing and reading transcripts: those of auctions, and texts that are accepted or rejected at their first error.

use crate::samples::answers::{FOUR_FITS, Given, THREE_FITS};
use crate::samples::books::{lone_station, three_stations};
use crate::samples::scenarios::{lone_bid, three_bids_by_one};
use crate::texts::transcripts::reader_tests::{Answer, is_same, reads_in_pieces};
use crate::texts::transcripts::samples::{of_three, written};
use crate::texts::complete_texts::{
    LAST_LEFT_OPEN, LONE_STATION, SECOND_ON_AIR, THREE_BY_VOLUME, THREE_STATIONS,
};
use pack_defs::book::Book;
use pack_defs::order::Order;
use pack_defs::scenario::Scenario;
use std::alloc::{AllocError as NoMemory, Global};
use std::test::Fail;
use transcript_text::TextErr;
use transcript_text::read::read_transcript;

fn read(alloc: Global, sc: &Scenario, book: &Book, text: &[u8]) -> Answer {
    let transcript = read_transcript(alloc, text, sc, book)?;
    Ok((transcript.order, transcript.steps.as_slice().len()))
}

// Checks whether the text has this outcome, read at once and in pieces.
fn reads(alloc: Global, sc: &Scenario, book: &Book, text: &[u8], answer: Answer) -> bool {
    is_same(read(alloc, sc, book, text), answer) && reads_in_pieces(alloc, sc, book, text, answer)
}

// Returns the first of these texts that, after `before`, is not read as expected.
fn misread<'a>(
    alloc: Global,
    before: &[u8],
    rows: &[(&'a [u8], Answer)],
) -> Result<Option<&'a [u8]>, NoMemory> {
    let book = three_stations(alloc)?;
    let sc = three_bids_by_one(alloc, 70, 1, 1000)?;
    for (row, answer) in rows {
        let mut text = Vec::from_slice(alloc, before)?;
        text.extend_from_slice(row)?;
        if !reads(alloc, &sc, &book, &text, *answer) {
            return Ok(Some(*row));
        }
    }
    Ok(None)
}

const SPENT: &[Given] = &[
    Given::Fit(1, 14),
    Given::Fit(2, 14),
    Given::Fit(3, 15),
    Given::Fit(1, 15),
    Given::Spent,
];

// Each of these auctions writes its expected transcript.
#[test]
fn what_is_written(rt: HostRuntime) -> Result<(), Fail> {
    let alloc = rt.alloc();
    let three = of_three(alloc, 70, 1000, Order::ByFacility, FOUR_FITS)?;
    assert_eq!(rt; three.as_slice(), THREE_STATIONS);
    let by_volume = of_three(alloc, 70, 1000, Order::ByVolume, FOUR_FITS)?;
    assert_eq!(rt; by_volume.as_slice(), THREE_BY_VOLUME);
    let beside = of_three(alloc, 101, 1000, Order::ByFacility, THREE_FITS)?;
    assert_eq!(rt; beside.as_slice(), SECOND_ON_AIR);
    let left_open = of_three(alloc, 70, 1, Order::ByFacility, SPENT)?;
    assert_eq!(rt; left_open.as_slice(), LAST_LEFT_OPEN);
    Ok(())
}

// The transcript of a station without a channel is read, and written the same.
#[test]
fn no_channel(rt: HostRuntime) -> Result<(), Fail> {
    let alloc = rt.alloc();
    let book = lone_station(alloc)?;
    let sc = lone_bid(alloc)?;
    assert!(rt; reads(alloc, &sc, &book, LONE_STATION, Ok((Order::ByFacility, 1))));
    let text = written(alloc, sc, &book, Order::ByFacility, &[])?;
    assert_eq!(rt; text.as_deref(), Some(LONE_STATION));
    Ok(())
}

// The complete text is read, and every shorter cut is `Truncated`.
#[test]
fn cut_at_every_byte(rt: HostRuntime) -> Result<(), Fail> {
    let alloc = rt.alloc();
    let book = three_stations(alloc)?;
    let sc = three_bids_by_one(alloc, 70, 1, 1000)?;
    assert!(rt;
        reads(
            alloc,
            &sc,
            &book,
            THREE_STATIONS,
            Ok((Order::ByFacility, 5))
        )
    );
    for end in 0..THREE_STATIONS.len() {
        assert!(rt;
            is_same(
                read(alloc, &sc, &book, &THREE_STATIONS[..end]),
                Err(TextErr::Truncated)
            )
        );
    }
    Ok(())
}

const NONE: Answer = Ok((Order::ByFacility, 0));

const ONE: Answer = Ok((Order::ByFacility, 1));

// By volume, without steps.
const LATER: Answer = Ok((Order::ByVolume, 0));

const CUT: Answer = Err(TextErr::Truncated);

const VERSION: Answer = Err(TextErr::Version);

// The first invalid line.
const BAD_2: Answer = Err(TextErr::BadLine { n: 2 });

const BAD_3: Answer = Err(TextErr::BadLine { n: 3 });

const BAD_4: Answer = Err(TextErr::BadLine { n: 4 });

const BAD_5: Answer = Err(TextErr::BadLine { n: 5 });

const BAD_6: Answer = Err(TextErr::BadLine { n: 6 });

// Complete texts.
const WHOLE: &[(&[u8], Answer)] = &[
    (b"", CUT),
    (b"transcript 1", CUT),
    (b"transcript 3", CUT),
    (b"\n", VERSION),
    (b"transcript 3\n", VERSION),
    (b"transcript 01\n", VERSION),
    (b"transcript  1\n", VERSION),
    (b"transcript\t1\n", VERSION),
    (b"transcript 1 \n", VERSION),
    (b" transcript 1\n", VERSION),
    (b"transcript 1\r\n", VERSION),
    (b"Transcript 1\n", VERSION),
    (b"start empty\n", VERSION),
    (b"transcript 1\n", CUT),
    (b"transcript 1\nstart empty", CUT),
    (b"transcript 1\nstart empty\nend 0\n", NONE),
    (b"transcript 2\nstart empty\nend 0\n", LATER),
    (b"transcript 1\nstart fit 0\nend 0\n", NONE),
    (
        b"transcript 1\nstart fit 2\nat 1 14\nat 3 51\nend 0\n",
        NONE,
    ),
    (b"transcript 1\nstart\n", BAD_2),
    (b"transcript 1\nstart none\n", BAD_2),
    (b"transcript 1\nstart empty 0\n", BAD_2),
    (b"transcript 1\nstart empty \n", BAD_2),
    (b"transcript 1\nstart empty\r\n", BAD_2),
    (b"transcript 1\nstart fit\n", BAD_2),
    (b"transcript 1\nstart fit 00\n", BAD_2),
    (b"transcript 1\nstart fit 1000001\n", BAD_2),
    (b"transcript 1\nstart fit 1000000\n", CUT),
    (b"transcript 1\nstart fit 1\nend 0\n", BAD_3),
    (b"transcript 1\nstart fit 1\nmove 1 14\n", BAD_3),
    (b"transcript 1\nstart fit 0\nat 1 14\n", BAD_3),
    (b"transcript 1\nend 0\n", BAD_2),
    (b"transcript 1\nnone 1 1\n", BAD_2),
    (b"transcript 1\ntranscript 1\n", BAD_2),
    (b"transcript 1\n\n", BAD_2),
];

#[test]
fn first_lines(rt: HostRuntime) -> Result<(), Fail> {
    assert_eq!(rt; misread(rt.alloc(), b"", WHOLE)?, None);
    Ok(())
}

// The beginning of each text of steps.
const START: &[u8] = b"transcript 1\nstart empty\n";

// Steps without a log, from the third line on.
const STEPS: &[(&[u8], Answer)] = &[
    (b"fit 1 1 1\nat 1 14\nend 1\n", ONE),
    (b"fit 4294967295 3 0\nend 1\n", ONE),
    (b"fit 4294967296 3 0\n", BAD_3),
    (b"fit 0 3 0\nend 1\n", ONE),
    (b"fit 00 3 0\n", BAD_3),
    (b"fit 1 4 0\n", BAD_3),
    (b"fit 1 0 0\n", BAD_3),
    (b"fit 1 1 1000000\n", CUT),
    (b"fit 1 1 1000001\n", BAD_3),
    (b"fit 1 1 1\nat 1 14\nend 2\n", BAD_5),
    (b"fit 1 1\n", BAD_3),
    (b"fit 1 1 0 0\n", BAD_3),
    (b"fit 1 1 -0\n", BAD_3),
    (b"fit 1 1 +1\n", BAD_3),
    (b"fit 1 1 x\n", BAD_3),
    (b"fit  1 1 0\n", BAD_3),
    (b"fit\t1 1 0\n", BAD_3),
    (b" fit 1 1 0\n", BAD_3),
    (b"fit 1 1 0 \n", BAD_3),
    (b"fit 1 1 0\r\n", BAD_3),
    (b"FIT 1 1 0\n", BAD_3),
    (b"fit 1 1 1\nat 1 13\n", BAD_4),
    (b"fit 1 1 1\nat 1 51\nend 1\n", ONE),
    (b"fit 1 1 1\nat 1 52\n", BAD_4),
    (b"fit 1 1 1\nat 1 014\n", BAD_4),
    (b"fit 1 1 1\nat 4 14\n", BAD_4),
    (b"fit 1 1 1\nat 1\n", BAD_4),
    (b"fit 1 1 1\nat 1 14 0\n", BAD_4),
    (b"fit 1 1 1\nat  1 14\n", BAD_4),
    (b"fit 1 1 1\nmove 1 14\n", BAD_4),
    (b"fit 1 1 1\nend 1\n", BAD_4),
    (b"fit 1 1 2\nat 1 14\nat 2 14\nend 1\n", ONE),
    (b"fit 1 1 2\nat 2 14\nat 1 14\n", BAD_5),
    (b"fit 1 1 2\nat 2 14\nat 2 15\n", BAD_5),
    (b"same 2 1\nend 1\n", ONE),
    (b"same 2 1 0\n", BAD_3),
    (b"same 2\n", BAD_3),
    (b"same 2 4\n", BAD_3),
    (b"same 2 1\nat 1 14\n", BAD_4),
    (b"none 1 1\nend 1\n", ONE),
    (b"none 1 1 1\n", BAD_3),
    (b"none 1 4\n", BAD_3),
    (b"dead 1 1 0 1 14 2 51\nend 1\n", ONE),
    (b"dead 1 1 1 1 14 2 14\n", BAD_3),
    (b"dead 1 1 0 4 14 2 14\n", BAD_3),
    (b"dead 1 1 0 1 13 2 14\n", BAD_3),
    (b"dead 1 1 0 1 14 4 14\n", BAD_3),
    (b"dead 1 1 0 1 14 2 52\n", BAD_3),
    (b"dead 1 1 0 1 14 2\n", BAD_3),
    (b"dead 1 1 0 1 14 2 14 0\n", BAD_3),
    (b"end 0\n", NONE),
    (b"end 1\n", BAD_3),
    (b"end 00\n", BAD_3),
    (b"end\n", BAD_3),
    (b"end 0 0\n", BAD_3),
    (b"end 0\nend 0\n", BAD_4),
    (b"end 0\nx", BAD_4),
    (b"end 0\n\n", BAD_4),
    (b"end 0", CUT),
    (b"", CUT),
    (b"none 1 1\nno", CUT),
    (b"none 1 4\nno", BAD_3),
    (b"start empty\n", BAD_3),
    (b"transcript 1\n", BAD_3),
    (b"at 1 14\n", BAD_3),
    (b"on 1\n", BAD_3),
    (b"lines 0 0\n", BAD_3),
    (b"move 1 14\n", BAD_3),
    (b"step 1 1\n", BAD_3),
    (b"\n", BAD_3),
];

#[test]
fn steps_without_a_log(rt: HostRuntime) -> Result<(), Fail> {
    assert_eq!(rt; misread(rt.alloc(), START, STEPS)?, None);
    Ok(())
}

// Steps with logs, from the third line on. The formula of stations 1 to 3 has 12 clauses; that of an empty set has none.
const LOGS: &[(&[u8], Answer)] = &[
    (b"log 2 3 0 1\non 1 2 3\n13 -1 0 7 2 0\nend 1\n", ONE),
    (b"log 2 3 0 1\non 1 2 3\n12 0 1 0\n", BAD_5),
    (b"log 2 3 0 1\non 1 2 3\n14 0 1 0\n", BAD_5),
    (b"log 2 3 0 1\non 1 2 3\n013 0 1 0\n", BAD_5),
    (b"log 2 3 0 2\non 1 2 3\n13 0 1 0\n13 0 1 0\n", BAD_6),
    (b"log 2 3 0 2\non 1 2 3\n13 0 1 0\n15 0 1 0\n", BAD_6),
    (b"log 2 3 0 2\non 1 2 3\n13 0 1 0\nend 1\n", BAD_6),
    (b"log 2 3 0 0\non\nend 1\n", ONE),
    (b"log 2 3 0 1\non\n1 0 1 0\nend 1\n", ONE),
    (b"log 2 3 0 0\non \n", BAD_4),
    (b"log 2 3 0 0\non 2 1\n", BAD_4),
    (b"log 2 3 0 0\non 1 1\n", BAD_4),
    (b"log 2 3 0 0\non 1 4\n", BAD_4),
    (b"log 2 3 0 0\nend 1\n", BAD_4),
    (b"log 2 3 1 0\n", BAD_3),
    (b"log 2 3 0 1000000\n", CUT),
    (b"log 2 3 0 1000001\n", BAD_3),
    (b"log 2 3 0\n", BAD_3),
    (b"log 2 3 0 0 0\n", BAD_3),
    (b"outside 2 3 1\n13 0 1 0\nend 1\n", ONE),
    (b"outside 2 3 2\n7 -1 0 1 0\n8 0 7 0\nend 1\n", ONE),
    (b"outside 2 3 2\n7 0 1 0\n9 0 1 0\n", BAD_5),
    (b"outside 2 3 0\nend 1\n", ONE),
    (b"outside 2 3 1000000\n", CUT),
    (b"outside 2 3 1000001\n", BAD_3),
    (b"outside 2 3\n", BAD_3),
    (b"outside 2 3 0 1\n", BAD_3),
    (b"outside 2 3 1\non 1\n", BAD_4),
    (b"undecided 2 3 1\nlines 0 0\nend 1\n", ONE),
    (b"undecided 2 3 1\nmoves 0 0\nend 1\n", ONE),
    (b"undecided 2 3 1\nmoves 0 1\nmove 3 15\nend 1\n", ONE),
    (
        b"undecided 2 3 1\nmoves 0 2\nmove 3 15\nmove 1 14\nend 1\n",
        ONE,
    ),
    (b"undecided 2 3 1\nmoves 0 1\nmove 3 52\n", BAD_5),
    (b"undecided 2 3 1\nmoves 0 1\nat 3 15\n", BAD_5),
    (b"undecided 2 3 1\nmoves 0 1000000\n", CUT),
    (b"undecided 2 3 1\nmoves 0 1000001\n", BAD_4),
    (b"undecided 2 3 1\nlines 0 1000001\n", BAD_4),
    (b"undecided 2 3 1\nlines 1 0\n", BAD_4),
    (b"undecided 2 3 1\nlines 00 0\n", BAD_4),
    (b"undecided 2 3 1\nlines 0\n", BAD_4),
    (b"undecided 2 3 1\nlines 0 0 0\n", BAD_4),
    (b"undecided 2 3 1\nlogs 0 0\n", BAD_4),
    (b"undecided 2 3 1\nend 1\n", BAD_4),
    (b"undecided 2 3 0\n", BAD_3),
    (b"undecided 2 3 2\n", BAD_3),
    (b"undecided 2 3 01\n", BAD_3),
    (b"undecided 2 3\n", BAD_3),
];

#[test]
fn steps_with_logs(rt: HostRuntime) -> Result<(), Fail> {
    assert_eq!(rt; misread(rt.alloc(), START, LOGS)?, None);
    Ok(())
}

// The text before the lines of a receipt. The receipt has two lines, from the fifth line on.
const RECEIPT: &[u8] = b"transcript 1\nstart empty\nundecided 2 3 1\nlines 0 2\n";

// Lines of a log.
const LINES: &[(&[u8], Answer)] = &[
    (b"13 -1 0 7 2 0\n14 0 13 0\nend 1\n", ONE),
    (b"0 0 1 0\n1 0 1 0\nend 1\n", ONE),
    (
        b"9223372036854775806 0 0\n9223372036854775807 0 0\nend 1\n",
        ONE,
    ),
    (b"9223372036854775807 0 0\n9223372036854775808 0 0\n", BAD_6),
    (b"9223372036854775808 0 0\n", BAD_5),
    (
        b"13 9223372036854775807 -9223372036854775807 0 0\n14 0 0\nend 1\n",
        ONE,
    ),
    (b"13 9223372036854775808 0 0\n", BAD_5),
    (b"13 -9223372036854775808 0 0\n", BAD_5),
    (b"13 0 9223372036854775807 0\n14 0 0\nend 1\n", ONE),
    (b"13 0 9223372036854775808 0\n", BAD_5),
    (b"13 0 0\n15 0 0\n", BAD_6),
    (b"13 0 0\n13 0 0\n", BAD_6),
    (b"13 0 -1 0\n", BAD_5),
    (b"13 0 0 0\n", BAD_5),
    (b"13 0 1\n", BAD_5),
    (b"13 1 0\n", BAD_5),
    (b"13 1\n", BAD_5),
    (b"13\n", BAD_5),
    (b"13 0 1 0 1\n", BAD_5),
    (b"13 -0 0 1 0\n", BAD_5),
    (b"13 00 1 0\n", BAD_5),
    (b"13 01 0 1 0\n", BAD_5),
    (b"13 -01 0 1 0\n", BAD_5),
    (b"13 - 0 1 0\n", BAD_5),
    (b"-13 0 1 0\n", BAD_5),
    (b"13  0 1 0\n", BAD_5),
    (b"13\t0 1 0\n", BAD_5),
    (b"13 0 1 0 \n", BAD_5),
    (b"13 0 1 0\r\n", BAD_5),
    (b" 13 0 1 0\n", BAD_5),
    (b"13 d 1 0\n", BAD_5),
    (b"c 13 0 1 0\n", BAD_5),
    (b"\n", BAD_5),
    (b"13 0 1 0\n14 0 1", CUT),
    (b"13 0 1 0\n", CUT),
];

#[test]
fn lines_of_a_log(rt: HostRuntime) -> Result<(), Fail> {
    assert_eq!(rt; misread(rt.alloc(), RECEIPT, LINES)?, None);
    Ok(())
}
