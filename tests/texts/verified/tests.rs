//! Verifying transcripts: valid ones are accepted, and others are rejected at their first invalid step.

use crate::samples::books::{lone_station, three_stations};
use crate::samples::scenarios::{lone_bid, three_bids_by_one};
use crate::texts::verified::samples::{
    APART, KIND, ORDER, Row, SOUND, STATION_3, misjudged, two_workers,
};
use crate::texts::complete_texts::{LONE_STATION, SECOND_ON_AIR, THREE_BY_VOLUME, THREE_STATIONS};
use cert_types::answer::Place;
use std::test::Fail;
use transcript_check::ShownWhy;

const COUNT: Option<ShownWhy> = Some(ShownWhy::NotValid(Place::Count));

const SUBSET: Option<ShownWhy> = Some(ShownWhy::NotValid(Place::Subset));

const STATION_1: Option<ShownWhy> = Some(ShownWhy::NotValid(Place::Station(1)));

const STATION_2: Option<ShownWhy> = Some(ShownWhy::NotValid(Place::Station(2)));

const LINE_1: Option<ShownWhy> = Some(ShownWhy::NotValid(Place::LineAt(1)));

const LINE_2: Option<ShownWhy> = Some(ShownWhy::NotValid(Place::LineAt(2)));

const MOVE_1: Option<ShownWhy> = Some(ShownWhy::NotValid(Place::MoveAt(1)));

// Complete transcripts. Round 1 tests stations 1 to 3, and round 2 stations 1 and 3.
const WHOLE: &[Row] = &[
    (THREE_STATIONS, 0, SOUND),
    (b"transcript 1\nstart empty\nend 0\n", 1, ORDER),
    (
        b"transcript 1\nstart empty\nfit 1 2 1\nat 2 14\nend 1\n",
        1,
        ORDER,
    ),
    (
        b"transcript 1\nstart empty\nfit 2 1 1\nat 1 14\nend 1\n",
        1,
        ORDER,
    ),
    (
        b"transcript 1\nstart empty\nfit 1 1 1\nat 1 14\nfit 1 1 1\nat 1 14\nend 2\n",
        2,
        ORDER,
    ),
    (THREE_BY_VOLUME, 0, SOUND),
    (b"transcript 1\nstart fit 0\nend 0\n", 0, KIND),
    (b"transcript 1\nstart fit 1\nat 2 14\nend 0\n", 0, KIND),
];

// Three valid steps.
const BEFORE_4: &[u8] =
    b"transcript 1\nstart empty\nfit 1 1 1\nat 1 14\nfit 1 2 1\nat 2 14\nfit 1 3 1\nat 3 15\n";

// Texts after `BEFORE_4`. The fourth step tests station 1 with station 2, which is on channel 14.
const FOURTH: &[Row] = &[
    (b"end 3\n", 4, ORDER),
    (b"fit 2 2 1\nat 2 15\nend 4\n", 4, ORDER),
    (b"fit 2 1 1\nat 1 14\nend 4\n", 4, APART),
    (
        b"fit 2 1 1\nat 1 14\nlog 2 3 0 2\non 1 2 3\n13 -1 0 7 2 8 3 12 0\n14 0 13 1 9 2 10 3 11 0\nend 5\n",
        4,
        APART,
    ),
    (b"fit 2 1 1\nat 1 16\nend 4\n", 4, STATION_1),
    (b"fit 2 1 2\nat 1 15\nat 3 14\nend 4\n", 4, STATION_3),
    (b"same 2 1\nend 4\n", 4, KIND),
    (b"none 2 1\nend 4\n", 4, KIND),
    (b"log 2 1 0 1\non 1 2 3\n13 0 1 0\nend 4\n", 4, SUBSET),
    (b"log 2 1 0 0\non 1 2 3\nend 4\n", 4, COUNT),
    (b"dead 2 1 0 1 14 2 14\nend 4\n", 4, APART),
];

// Four valid steps.
const BEFORE_5: &[u8] =
    b"transcript 1\nstart empty\nfit 1 1 1\nat 1 14\nfit 1 2 1\nat 2 14\nfit 1 3 1\nat 3 15\nfit 2 1 1\nat 1 15\n";

// Texts after `BEFORE_5`. The fifth step tests station 3 with the other two, which use both channels.
const FIFTH: &[Row] = &[
    (b"end 4\n", 5, ORDER),
    (
        b"log 2 3 0 2\non 1 2 3\n13 -1 0 7 2 8 3 12 0\n14 0 13 1 9 2 10 3 11 0\nfit 3 1 0\nend 6\n",
        6,
        ORDER,
    ),
    (b"same 2 3\nend 5\n", 5, KIND),
    (b"fit 2 3 0\nend 5\n", 5, STATION_3),
    (
        b"log 2 3 0 1\non 1 2 3\n13 -1 0 7 2 8 3 12 0\nend 5\n",
        5,
        LINE_1,
    ),
    (
        b"log 2 3 0 2\non 1 2 3\n13 -1 0 7 2 8 3 12 0\n14 0 13 1 9 0\nend 5\n",
        5,
        LINE_2,
    ),
    (b"log 2 3 0 1\non 1 2\n7 0 1 0\nend 5\n", 5, LINE_1),
    (
        b"outside 2 3 2\n13 -1 0 7 2 8 3 12 0\n14 0 13 1 9 2 10 3 11 0\nend 5\n",
        0,
        SOUND,
    ),
    (
        b"outside 2 3 2\n14 -1 0 7 2 8 3 12 0\n15 0 13 1 9 2 10 3 11 0\nend 5\n",
        5,
        LINE_1,
    ),
    (
        b"outside 2 3 2\n1 -1 0 7 2 8 3 12 0\n2 0 13 1 9 2 10 3 11 0\nend 5\n",
        5,
        LINE_1,
    ),
    (
        b"outside 2 3 2\n13 -1 0 7 2 8 3 12 0\n14 0 13 1 9 0\nend 5\n",
        5,
        LINE_2,
    ),
    (b"outside 2 3 0\nend 5\n", 5, COUNT),
    (
        b"undecided 2 3 1\nlines 0 1\n13 -1 0 7 2 8 3 12 0\nend 5\n",
        5,
        COUNT,
    ),
    (b"undecided 2 3 1\nmoves 0 0\nend 5\n", 5, KIND),
];

#[test]
fn rounds_by_facility(rt: HostRuntime) -> Result<(), Fail> {
    let alloc = rt.alloc();
    let book = three_stations(alloc)?;
    let sc = three_bids_by_one(alloc, 70, 1, 1000)?;
    assert_eq!(rt; misjudged(alloc, &sc, &sc, &book, b"", WHOLE)?, None);
    assert_eq!(rt; misjudged(alloc, &sc, &sc, &book, BEFORE_4, FOURTH)?, None);
    assert_eq!(rt; misjudged(alloc, &sc, &sc, &book, BEFORE_5, FIFTH)?, None);
    Ok(())
}

// Rounds that test station 3 first, because it has the greatest volume.
const BY_VOLUME: &[Row] = &[
    (
        b"transcript 2\nstart empty\nfit 1 3 1\nat 3 14\nfit 1 1 1\nat 1 14\nfit 1 2 1\nat 2 14\nfit 2 3 1\nat 3 15\nfit 2 1 1\nat 1 15\nlog 3 3 0 2\non 1 2 3\n13 -1 0 7 2 8 3 12 0\n14 0 13 1 9 2 10 3 11 0\nend 6\n",
        0,
        SOUND,
    ),
    (
        b"transcript 2\nstart empty\nfit 1 3 1\nat 3 14\nfit 1 1 1\nat 1 14\nfit 1 2 1\nat 2 14\nfit 2 3 1\nat 3 15\nfit 2 1 1\nat 1 15\nend 5\n",
        6,
        ORDER,
    ),
    (
        b"transcript 2\nstart empty\nfit 1 1 1\nat 1 14\nend 1\n",
        1,
        ORDER,
    ),
    (
        b"transcript 2\nstart empty\nfit 1 3 1\nat 3 14\nfit 1 2 1\nat 2 14\nend 2\n",
        2,
        ORDER,
    ),
    (
        b"transcript 1\nstart empty\nfit 1 3 1\nat 3 14\nend 1\n",
        1,
        ORDER,
    ),
    (
        b"transcript 2\nstart empty\nfit 1 3 1\nat 3 14\nfit 1 1 1\nat 1 14\nfit 1 2 1\nat 2 14\nfit 2 3 1\nat 3 15\nfit 2 1 1\nat 1 14\nlog 3 3 0 2\non 1 2 3\n13 -1 0 7 2 8 3 12 0\n14 0 13 1 9 2 10 3 11 0\nend 6\n",
        5,
        APART,
    ),
];

#[test]
fn rounds_by_volume(rt: HostRuntime) -> Result<(), Fail> {
    let alloc = rt.alloc();
    let book = three_stations(alloc)?;
    let sc = three_bids_by_one(alloc, 70, 2, 1000)?;
    assert_eq!(rt; misjudged(alloc, &sc, &sc, &book, b"", BY_VOLUME)?, None);
    Ok(())
}

// `SECOND_ON_AIR`, and other transcripts of the same auction.
const BESIDE: &[Row] = &[
    (SECOND_ON_AIR, 0, SOUND),
    (
        b"transcript 1\nstart fit 1\nat 2 14\nfit 1 1 1\nat 1 15\nfit 1 3 1\nat 3 15\nend 2\n",
        3,
        ORDER,
    ),
    (
        b"transcript 1\nstart fit 1\nat 2 14\nfit 1 1 1\nat 1 15\nfit 1 3 1\nat 3 15\nfit 2 1 1\nat 1 15\nlog 2 3 0 2\non 1 2 3\n13 -1 0 7 2 8 3 12 0\n14 0 13 1 9 2 10 3 11 0\nend 4\n",
        3,
        KIND,
    ),
    (
        b"transcript 1\nstart fit 1\nat 2 14\nfit 1 1 1\nat 1 15\nfit 1 3 1\nat 3 15\nnone 2 1\nend 3\n",
        3,
        KIND,
    ),
    (
        b"transcript 1\nstart fit 1\nat 2 14\nfit 1 1 1\nat 1 15\nfit 1 3 1\nat 3 15\nsame 2 3\nend 3\n",
        3,
        ORDER,
    ),
    (
        b"transcript 1\nstart fit 1\nat 2 14\nsame 1 1\nend 1\n",
        1,
        KIND,
    ),
    (
        b"transcript 1\nstart fit 1\nat 2 14\nfit 1 1 1\nat 1 15\nfit 1 3 1\nat 3 15\nsame 2 1\nsame 2 3\nend 4\n",
        4,
        KIND,
    ),
    (
        b"transcript 1\nstart fit 1\nat 2 14\nfit 1 1 1\nat 1 14\nend 1\n",
        1,
        APART,
    ),
    (b"transcript 1\nstart fit 1\nat 2 16\nend 0\n", 0, STATION_2),
    (b"transcript 1\nstart fit 0\nend 0\n", 0, STATION_2),
    (b"transcript 1\nstart empty\nend 0\n", 0, KIND),
];

#[test]
fn a_start_set_that_fits(rt: HostRuntime) -> Result<(), Fail> {
    let alloc = rt.alloc();
    let book = three_stations(alloc)?;
    let sc = three_bids_by_one(alloc, 101, 1, 1000)?;
    assert_eq!(rt; misjudged(alloc, &sc, &sc, &book, b"", BESIDE)?, None);
    Ok(())
}

// Texts of the fifth step by two workers, each with a budget of one line or move.
const BY_TWO: &[Row] = &[
    (
        b"undecided 2 3 2\nlines 0 1\n13 -1 0 7 2 8 3 12 0\nmoves 1 1\nmove 3 15\nend 5\n",
        0,
        SOUND,
    ),
    (
        b"undecided 2 3 2\nlines 0 1\n13 -1 0 7 2 8 3 12 0\nmoves 1 1\nmove 2 14\nend 5\n",
        5,
        MOVE_1,
    ),
    (
        b"undecided 2 3 2\nlines 0 1\n13 -1 0 7 2 8 3 12 0\nlines 1 1\n13 -1 0 7 2 8 3 12 0\nend 5\n",
        5,
        KIND,
    ),
    (
        b"undecided 2 3 2\nlines 0 1\n13 -1 0 7 2 8 3 12 0\nmoves 1 0\nend 5\n",
        5,
        COUNT,
    ),
    (
        b"undecided 2 3 2\nlines 0 1\n14 -1 0 7 2 8 3 12 0\nmoves 1 1\nmove 3 15\nend 5\n",
        5,
        LINE_1,
    ),
    (
        b"undecided 2 3 2\nlines 0 1\n1 -1 0 7 2 8 3 12 0\nmoves 1 0\nend 5\n",
        5,
        LINE_1,
    ),
    (
        b"undecided 2 3 2\nlines 0 1\n13 -1 0 7 0\nmoves 1 1\nmove 3 15\nend 5\n",
        5,
        LINE_1,
    ),
    (
        b"log 2 3 1 2\non 1 2 3\n13 -1 0 7 2 8 3 12 0\n14 0 13 1 9 2 10 3 11 0\nend 5\n",
        5,
        KIND,
    ),
    (
        b"log 2 3 0 2\non 1 2 3\n13 -1 0 7 2 8 3 12 0\n14 0 13 1 9 2 10 3 11 0\nend 5\n",
        5,
        COUNT,
    ),
];

// Texts of the fifth step by two workers, in a scenario with only one worker.
const BY_A_STRANGER: &[Row] = &[
    (
        b"log 2 3 1 2\non 1 2 3\n13 -1 0 7 2 8 3 12 0\n14 0 13 1 9 2 10 3 11 0\nend 5\n",
        5,
        KIND,
    ),
    (
        b"undecided 2 3 2\nlines 0 1\n13 -1 0 7 2 8 3 12 0\nmoves 1 1\nmove 3 15\nend 5\n",
        5,
        KIND,
    ),
];

#[test]
fn what_workers_say(rt: HostRuntime) -> Result<(), Fail> {
    let alloc = rt.alloc();
    let book = three_stations(alloc)?;
    let two = two_workers(alloc)?;
    let one = three_bids_by_one(alloc, 70, 1, 1)?;
    assert_eq!(rt;
        misjudged(alloc, &two, &two, &book, BEFORE_5, BY_TWO)?,
        None
    );
    assert_eq!(rt;
        misjudged(alloc, &two, &one, &book, BEFORE_5, BY_A_STRANGER)?,
        None
    );
    Ok(())
}

// A station without a channel.
const LONE: &[Row] = &[
    (LONE_STATION, 0, SOUND),
    (b"transcript 1\nstart empty\nend 0\n", 1, ORDER),
    (
        b"transcript 1\nstart empty\nfit 1 1 1\nat 1 14\nend 1\n",
        1,
        KIND,
    ),
    (b"transcript 1\nstart empty\nsame 1 1\nend 1\n", 1, KIND),
    (b"transcript 1\nstart empty\nnone 2 1\nend 1\n", 1, ORDER),
    (
        b"transcript 1\nstart empty\nnone 1 1\nnone 1 1\nend 2\n",
        2,
        ORDER,
    ),
];

#[test]
fn no_channel(rt: HostRuntime) -> Result<(), Fail> {
    let alloc = rt.alloc();
    let book = lone_station(alloc)?;
    let sc = lone_bid(alloc)?;
    assert_eq!(rt; misjudged(alloc, &sc, &sc, &book, b"", LONE)?, None);
    Ok(())
}
