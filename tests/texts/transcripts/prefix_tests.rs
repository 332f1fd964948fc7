//! Prefixes of transcripts: what is kept of a text that ends anywhere, and why a text is rejected.

use crate::samples::books::three_stations;
use crate::samples::scenarios::three_bids_by_one;
use crate::texts::complete_texts::{SECOND_ON_AIR, THREE_STATIONS};
use auction_core::prefix::Prefix;
use auction_core::record::Shown;
use auction_core::transcript::TranscriptStep;
use pack_defs::book::Book;
use pack_defs::order::Order;
use pack_defs::scenario::Scenario;
use std::alloc::{AllocError as NoMemory, Global};
use std::test::Fail;
use transcript_text::TextErr;
use transcript_text::prefix_reading::read_prefix;
use transcript_text::reader::TranscriptReader;

// What is kept of a text.
#[derive(Clone, Copy)]
enum Kept {
    Nothing,
    // The first line, with this order.
    First(Order),
    // Tests by facility, a start with this many stations on air, and steps of these stations.
    Started(usize, &'static [u32]),
    // The same as `Started`, and the `end` line.
    Ended(usize, &'static [u32]),
}

type Answer = Result<Kept, TextErr>;

// Returns how many stations a start puts on air.
fn on_air(start: &Option<Shown>) -> Option<usize> {
    match start {
        Some(Shown::Empty) => Some(0),
        Some(Shown::Fits(delta)) => Some(delta.entries().len()),
        _ => None,
    }
}

// Checks whether the steps are of these stations.
fn are_of(steps: &[TranscriptStep], stations: &[u32]) -> bool {
    if steps.len() != stations.len() {
        return false;
    }
    for (x, station) in steps.iter().zip(stations.iter()) {
        if x.step.station != *station {
            return false;
        }
    }
    true
}

// Checks whether the prefix has this order and nothing else.
fn is_unstarted(prefix: &Prefix, order: Option<Order>) -> bool {
    if prefix.order != order || prefix.start.is_some() {
        return false;
    }
    prefix.steps.as_slice().is_empty() && !prefix.ended
}

// Checks whether the prefix has a start with this many stations on air, and steps of these stations.
fn is_started(prefix: &Prefix, count: usize, stations: &[u32]) -> bool {
    if prefix.order != Some(Order::ByFacility) || on_air(&prefix.start) != Some(count) {
        return false;
    }
    are_of(prefix.steps.as_slice(), stations)
}

// Checks whether the prefix is what is to be kept.
fn is_kept(prefix: &Prefix, kept: Kept) -> bool {
    match kept {
        Kept::Nothing => is_unstarted(prefix, None),
        Kept::First(order) => is_unstarted(prefix, Some(order)),
        Kept::Started(count, stations) => { is_started(prefix, count, stations) && !prefix.ended }
        Kept::Ended(count, stations) => is_started(prefix, count, stations) && prefix.ended,
    }
}

// Checks whether reading had this outcome.
fn is_answer(read: Result<Prefix, TextErr>, answer: Answer) -> bool {
    match (read, answer) {
        (Ok(prefix), Ok(kept)) => is_kept(&prefix, kept),
        (Err(why), Err(wanted)) => why == wanted,
        _ => false,
    }
}

// Reads a text in pieces: the first one of `first` bytes, each later one of `others` bytes.
fn read_pieces(
    alloc: Global,
    sc: &Scenario,
    book: &Book,
    text: &[u8],
    first: usize,
    others: usize,
) -> Result<Prefix, TextErr> {
    let mut reader = TranscriptReader::new(alloc).feed(sc, book, &text[..first])?;
    for piece in text[first..].chunks(others) {
        reader = reader.feed(sc, book, piece)?;
    }
    reader.finish_prefix(sc, book)
}

// Checks whether the text, read as a prefix, has this outcome. The text is read at once, in two pieces cut anywhere, and in pieces of one
// and of seven bytes.
fn keeps(alloc: Global, sc: &Scenario, book: &Book, text: &[u8], answer: Answer) -> bool {
    for cut in 0..text.len() + 1 {
        if !is_answer(read_pieces(alloc, sc, book, text, cut, text.len() + 1), answer) {
            return false;
        }
    }
    is_answer(read_prefix(alloc, text, sc, book), answer)
        && is_answer(read_pieces(alloc, sc, book, text, 0, 1), answer)
        && is_answer(read_pieces(alloc, sc, book, text, 0, 7), answer)
}

const NOTHING: Answer = Ok(Kept::Nothing);

const FIRST: Answer = Ok(Kept::First(Order::ByFacility));

const FIRST_LATER: Answer = Ok(Kept::First(Order::ByVolume));

const VERSION: Answer = Err(TextErr::Version);

const BAD_2: Answer = Err(TextErr::BadLine { n: 2 });

const BAD_3: Answer = Err(TextErr::BadLine { n: 3 });

const BAD_4: Answer = Err(TextErr::BadLine { n: 4 });

// What is kept of the three stations' transcript, by the number of its complete lines, 0 to 15.
const OF_THREE: &[Answer] = &[
    NOTHING,
    FIRST,
    Ok(Kept::Started(0, &[])),
    Ok(Kept::Started(0, &[])),
    Ok(Kept::Started(0, &[1])),
    Ok(Kept::Started(0, &[1])),
    Ok(Kept::Started(0, &[1, 2])),
    Ok(Kept::Started(0, &[1, 2])),
    Ok(Kept::Started(0, &[1, 2, 3])),
    Ok(Kept::Started(0, &[1, 2, 3])),
    Ok(Kept::Started(0, &[1, 2, 3, 1])),
    Ok(Kept::Started(0, &[1, 2, 3, 1])),
    Ok(Kept::Started(0, &[1, 2, 3, 1])),
    Ok(Kept::Started(0, &[1, 2, 3, 1])),
    Ok(Kept::Started(0, &[1, 2, 3, 1, 3])),
    Ok(Kept::Ended(0, &[1, 2, 3, 1, 3])),
];

// What is kept of the transcript with a station on air from the start, by the number of its complete lines, 0 to 13.
const OF_BESIDE: &[Answer] = &[
    NOTHING,
    FIRST,
    FIRST,
    Ok(Kept::Started(1, &[])),
    Ok(Kept::Started(1, &[])),
    Ok(Kept::Started(1, &[1])),
    Ok(Kept::Started(1, &[1])),
    Ok(Kept::Started(1, &[1, 3])),
    Ok(Kept::Started(1, &[1, 3, 1])),
    Ok(Kept::Started(1, &[1, 3, 1])),
    Ok(Kept::Started(1, &[1, 3, 1])),
    Ok(Kept::Started(1, &[1, 3, 1])),
    Ok(Kept::Started(1, &[1, 3, 1, 3])),
    Ok(Kept::Ended(1, &[1, 3, 1, 3])),
];

// Returns the number of complete lines.
fn line_ends(text: &[u8]) -> usize {
    text.iter().filter(|byte| **byte == b'\n').count()
}

// Returns the first length at which a cut of this text is not kept as its complete lines require.
fn miskept(alloc: Global, text: &[u8], answers: &[Answer]) -> Result<Option<usize>, NoMemory> {
    let book = three_stations(alloc)?;
    let sc = three_bids_by_one(alloc, 70, 1, 1000)?;
    for end in 0..text.len() + 1 {
        let part = &text[..end];
        let Some(answer) = answers.get(line_ends(part)) else {
            return Ok(Some(end));
        };
        if !keeps(alloc, &sc, &book, part, *answer) {
            return Ok(Some(end));
        }
    }
    Ok(None)
}

// What is kept of a cut transcript depends only on its complete lines. The cuts are at every byte.
#[test]
fn cut_anywhere(rt: HostRuntime) -> Result<(), Fail> {
    let alloc = rt.alloc();
    assert_eq!(rt; miskept(alloc, THREE_STATIONS, OF_THREE)?, None);
    assert_eq!(rt; miskept(alloc, SECOND_ON_AIR, OF_BESIDE)?, None);
    Ok(())
}

// Returns the first of these texts that, after `before`, is not kept as expected.
fn misread<'a>(
    alloc: Global,
    before: &[u8],
    rows: &[(&'a [u8], Answer)],
) -> Result<Option<&'a [u8]>, NoMemory> {
    let book = three_stations(alloc)?;
    let sc = three_bids_by_one(alloc, 70, 1, 1000)?;
    for (row, answer) in rows {
        let mut text = Vec::from_slice(alloc, before)?;
        text.extend_from_slice(row)?;
        if !keeps(alloc, &sc, &book, &text, *answer) {
            return Ok(Some(*row));
        }
    }
    Ok(None)
}

// Complete texts.
const WHOLE: &[(&[u8], Answer)] = &[
    (b"", NOTHING),
    (b"transcript 1", NOTHING),
    (b"transcript 3", NOTHING),
    (b"x", NOTHING),
    (b"transcript 1\n", FIRST),
    (b"transcript 2\n", FIRST_LATER),
    (b"transcript 2\nstart empty", FIRST_LATER),
    (b"transcript 2\nstart none", FIRST_LATER),
    (b"\n", VERSION),
    (b"transcript 3\n", VERSION),
    (b"transcript 3\nstart", VERSION),
    (b"transcript 1\r\n", VERSION),
    (b"transcript 1\nstart fit 2\n", FIRST),
    (b"transcript 1\nstart fit 2\nat 1 14\n", FIRST),
    (b"transcript 1\nstart fit 2\nat 1 14\nat 3 51", FIRST),
    (
        b"transcript 1\nstart fit 2\nat 1 14\nat 3 51\n",
        Ok(Kept::Started(2, &[])),
    ),
    (b"transcript 1\nstart fit 2\nat 1 14\nat 1 51\n", BAD_4),
    (b"transcript 1\nstart fit 2\nat 1 13\n", BAD_3),
    (b"transcript 1\nstart none\n", BAD_2),
    (b"transcript 1\n\n", BAD_2),
    (b"transcript 1\nend 0\n", BAD_2),
];

// The beginning of each text of steps.
const START: &[u8] = b"transcript 1\nstart empty\n";

// Steps, from the third line on.
const STEPS: &[(&[u8], Answer)] = &[
    (b"", Ok(Kept::Started(0, &[]))),
    (b"same 2 1\n", Ok(Kept::Started(0, &[1]))),
    (
        b"same 2 1\nnone 1 2\nfit 1 3 1\n",
        Ok(Kept::Started(0, &[1, 2])),
    ),
    (
        b"same 2 1\nnone 1 2\nfit 1 3 0\n",
        Ok(Kept::Started(0, &[1, 2, 3])),
    ),
    (b"same 2 1\nnone 1 2", Ok(Kept::Started(0, &[1]))),
    (b"none 1 4", Ok(Kept::Started(0, &[]))),
    (b"none 1 4\n", BAD_3),
    (b"fit 1 1 2\nat 1 14\n", Ok(Kept::Started(0, &[]))),
    (b"fit 1 1 1\nat 1 13\nfit 1 2", BAD_4),
    (b"fit 1 1 1\nat 1 13", Ok(Kept::Started(0, &[]))),
    (b"same 2 1\nsame 2 4\nsame 2 2\nend 3\n", BAD_4),
    (b"log 2 3 0 1\n", Ok(Kept::Started(0, &[]))),
    (b"log 2 3 0 1\non 1 2 3\n", Ok(Kept::Started(0, &[]))),
    (
        b"log 2 3 0 1\non 1 2 3\n13 -1 0 7 2 0\n",
        Ok(Kept::Started(0, &[3])),
    ),
    (b"log 2 3 0 1\non 3 2\n", BAD_4),
    (b"dead 1 1 0 1 14 2 51\n", Ok(Kept::Started(0, &[1]))),
    (b"outside 2 3 1\n", Ok(Kept::Started(0, &[]))),
    (b"outside 2 3 1\n13 0 1 0\n", Ok(Kept::Started(0, &[3]))),
    (b"undecided 2 3 1\n", Ok(Kept::Started(0, &[]))),
    (b"undecided 2 3 1\nlines 0 1\n", Ok(Kept::Started(0, &[]))),
    (
        b"undecided 2 3 1\nlines 0 1\n13 0 1 0\n",
        Ok(Kept::Started(0, &[3])),
    ),
    (b"end 0", Ok(Kept::Started(0, &[]))),
    (b"end 0\n", Ok(Kept::Ended(0, &[]))),
    (b"same 2 1\nend 1\n", Ok(Kept::Ended(0, &[1]))),
    (b"end 0\nx", Ok(Kept::Ended(0, &[]))),
    (b"end 0\nend 0", Ok(Kept::Ended(0, &[]))),
    (b"end 0\nend 0\n", BAD_4),
    (b"end 0\n\n", BAD_4),
    (b"end 0\nx\ny", BAD_4),
    (b"end 1\n", BAD_3),
    (b"end 1", Ok(Kept::Started(0, &[]))),
    (b"\n", BAD_3),
];

#[test]
fn kept_or_refused(rt: HostRuntime) -> Result<(), Fail> {
    let alloc = rt.alloc();
    assert_eq!(rt; misread(alloc, b"", WHOLE)?, None);
    assert_eq!(rt; misread(alloc, START, STEPS)?, None);
    Ok(())
}
