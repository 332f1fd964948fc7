//! Resuming auctions from a prefix of a transcript: where the auction resumes, or the first invalid step.

use crate::samples::books::{lone_station, three_stations};
use crate::samples::scenarios::{lone_bid, three_bids_by_one};
use crate::texts::verified::samples::{KIND, ORDER, STATION_3, two_workers};
use crate::texts::complete_texts::{SECOND_ON_AIR, THREE_STATIONS};
use auction_core::auction::Auction;
use auction_core::prefix::{ResumeErr, ShownWhy};
use pack_defs::book::Book;
use pack_defs::scenario::Scenario;
use std::alloc::{AllocError as NoMemory, Global};
use std::test::Fail;
use transcript_text::prefix_reading::read_prefix;

// Where an auction resumes.
#[derive(Clone, Copy)]
enum Stands {
    // At the query of this number.
    At(u64),
    // At its end. The number is the last query's plus one.
    Over(u64),
    // Nowhere: this step is invalid.
    Unshown(u64, Option<ShownWhy>),
}

type Row<'a> = (&'a [u8], Stands);

// Checks whether the auction is where the row expects it, without any postings.
fn is_there(auction: &Auction, stands: Stands) -> bool {
    if auction.posted() != 0 {
        return false;
    }
    match stands {
        Stands::At(number) => auction.number() == number && !auction.ended(),
        Stands::Over(number) => auction.number() == number && auction.ended(),
        Stands::Unshown(_, _) => false,
    }
}

// Checks whether the error is the expected one.
fn is_why(e: ResumeErr, stands: Stands) -> bool {
    match (e, stands) {
        (ResumeErr::NotShown { step, why }, Stands::Unshown(wanted, cause)) => {
            step == wanted && Some(why) == cause
        }
        _ => false,
    }
}

// Checks whether an auction resumes from this text as the row expects. `read_by` reads the text; the auction may have another scenario.
fn goes_on(alloc: Global, read_by: &Scenario, sc: &Scenario, book: &Book, row: Row<'_>) -> bool {
    let Ok(prefix) = read_prefix(alloc, row.0, read_by, book) else {
        return false;
    };
    match Auction::resume(alloc, sc, book, prefix) {
        Ok(auction) => is_there(&auction, row.1),
        Err(e) => is_why(e, row.1),
    }
}

// Returns the first text from which the auction resumes otherwise.
fn misplaced<'a>(
    alloc: Global,
    read_by: &Scenario,
    sc: &Scenario,
    book: &Book,
    rows: &[Row<'a>],
) -> Option<&'a [u8]> {
    for row in rows {
        if !goes_on(alloc, read_by, sc, book, *row) {
            return Some(row.0);
        }
    }
    None
}

// Prefixes of the transcript of three stations, none of which starts on air. Each of the five tests took one query.
const THREE: &[Row] = &[
    (b"", Stands::At(1)),
    (b"transcript 1\n", Stands::At(1)),
    (b"transcript 1\nstart empty\n", Stands::At(1)),
    (
        b"transcript 1\nstart empty\nfit 1 1 1\nat 1 14\nfit 1 2 1\nat 2 14\nfit 1 3 1\nat 3 15\nfit 2 1 1\n",
        Stands::At(4),
    ),
    (
        b"transcript 1\nstart empty\nfit 1 1 1\nat 1 14\nfit 1 2 1\nat 2 14\nfit 1 3 1\nat 3 15\nfit 2 1 1\nat 1 15\nlog 2 3 0 2\non 1 2 3\n13 -1 0 7 2",
        Stands::At(5),
    ),
    (
        b"transcript 1\nstart empty\nfit 1 1 1\nat 1 14\nfit 1 2 1\nat 2 14\nfit 1 3 1\nat 3 15\nfit 2 1 1\nat 1 15\nlog 2 3 0 2\non 1 2 3\n13 -1 0 7 2 8 3 12 0\n14 0 13 1 9 2 10 3 11 0\n",
        Stands::Over(6),
    ),
    (THREE_STATIONS, Stands::Over(6)),
    (
        b"transcript 1\nstart empty\nfit 1 2 1\nat 2 14\n",
        Stands::Unshown(1, ORDER),
    ),
    (
        b"transcript 1\nstart empty\nend 0\n",
        Stands::Unshown(1, ORDER),
    ),
    (
        b"transcript 1\nstart empty\nfit 1 1 1\nat 1 14\nend 1\n",
        Stands::Unshown(2, ORDER),
    ),
    (
        b"transcript 1\nstart empty\nfit 1 1 1\nat 1 14\nfit 1 2 1\nat 2 14\nfit 1 3 1\nat 3 16\n",
        Stands::Unshown(3, STATION_3),
    ),
    (b"transcript 1\nstart fit 0\n", Stands::Unshown(0, KIND)),
];

// Prefixes of the transcript with station 2 on air from the start. The start took the first query, and the third test needs no query.
const BESIDE: &[Row] = &[
    (b"", Stands::At(1)),
    (b"transcript 1\nstart fit 1\n", Stands::At(1)),
    (b"transcript 1\nstart fit 1\nat 2 14\n", Stands::At(2)),
    (
        b"transcript 1\nstart fit 1\nat 2 14\nfit 1 1 1\nat 1 15\n",
        Stands::At(3),
    ),
    (
        b"transcript 1\nstart fit 1\nat 2 14\nfit 1 1 1\nat 1 15\nfit 1 3 1\nat 3 15\n",
        Stands::At(4),
    ),
    (
        b"transcript 1\nstart fit 1\nat 2 14\nfit 1 1 1\nat 1 15\nfit 1 3 1\nat 3 15\nsame 2 1\n",
        Stands::At(4),
    ),
    (
        b"transcript 1\nstart fit 1\nat 2 14\nfit 1 1 1\nat 1 15\nfit 1 3 1\nat 3 15\nfit 2 1 1\nat 1 15\n",
        Stands::Unshown(3, KIND),
    ),
    (
        b"transcript 1\nstart fit 1\nat 2 14\nfit 1 1 1\nat 1 15\nfit 1 3 1\nat 3 15\nend 2\n",
        Stands::Unshown(3, ORDER),
    ),
    (SECOND_ON_AIR, Stands::Over(5)),
    (b"transcript 1\nstart empty\n", Stands::Unshown(0, KIND)),
];

// A station without a channel: no test needs a query.
const LONE: &[Row] = &[
    (b"", Stands::Over(1)),
    (b"transcript 1\nstart empty\n", Stands::Over(1)),
    (b"transcript 1\nstart empty\nnone 1 1\n", Stands::Over(1)),
    (
        b"transcript 1\nstart empty\nend 0\n",
        Stands::Unshown(1, ORDER),
    ),
];

#[test]
fn where_an_auction_goes_on(rt: HostRuntime) -> Result<(), Fail> {
    let alloc = rt.alloc();
    let book = three_stations(alloc)?;
    let sc = three_bids_by_one(alloc, 70, 1, 1000)?;
    assert_eq!(rt; misplaced(alloc, &sc, &sc, &book, THREE), None);
    let on_air = three_bids_by_one(alloc, 101, 1, 1000)?;
    assert_eq!(rt; misplaced(alloc, &on_air, &on_air, &book, BESIDE), None);
    Ok(())
}

#[test]
fn tests_that_need_no_query(rt: HostRuntime) -> Result<(), Fail> {
    let alloc = rt.alloc();
    let book = lone_station(alloc)?;
    let sc = lone_bid(alloc)?;
    assert_eq!(rt; misplaced(alloc, &sc, &sc, &book, LONE), None);
    Ok(())
}

// Two workers left the fifth test undecided.
const OPEN: &[u8] =
    b"transcript 1\nstart empty\nfit 1 1 1\nat 1 14\nfit 1 2 1\nat 2 14\nfit 1 3 1\nat 3 15\nfit 2 1 1\nat 1 15\nundecided 2 3 2\nlines 0 1\n13 -1 0 7 2 8 3 12 0\nmoves 1 1\nmove 3 15\n";

// An undecided step is valid with the two workers that left it undecided, and invalid with only one worker.
#[test]
fn by_other_workers(rt: HostRuntime) -> Result<(), Fail> {
    let alloc = rt.alloc();
    let book = three_stations(alloc)?;
    let two = two_workers(alloc)?;
    let one = three_bids_by_one(alloc, 70, 1, 1)?;
    assert_eq!(rt;
        misplaced(alloc, &two, &two, &book, &[(OPEN, Stands::Over(6))]),
        None
    );
    assert_eq!(rt;
        misplaced(
            alloc,
            &two,
            &one,
            &book,
            &[(OPEN, Stands::Unshown(5, KIND))]
        ),
        None
    );
    Ok(())
}

// Returns the first length at which a cut of the three stations' transcript does not resume after as many queries as steps.
fn misnumbered(alloc: Global, text: &[u8]) -> Result<Option<usize>, NoMemory> {
    let book = three_stations(alloc)?;
    let sc = three_bids_by_one(alloc, 70, 1, 1000)?;
    for end in 0..text.len() + 1 {
        if !is_numbered(alloc, &sc, &book, &text[..end]) {
            return Ok(Some(end));
        }
    }
    Ok(None)
}

// Checks whether an auction resumes from this text after as many queries as the text has steps.
fn is_numbered(alloc: Global, sc: &Scenario, book: &Book, text: &[u8]) -> bool {
    let Ok(prefix) = read_prefix(alloc, text, sc, book) else {
        return false;
    };
    let steps = prefix.steps.as_slice().len();
    let Ok(auction) = Auction::resume(alloc, sc, book, prefix) else {
        return false;
    };
    auction.number() == (steps as u64).saturating_add(1) && auction.ended() == (steps == 5)
}

#[test]
fn cut_at_every_byte(rt: HostRuntime) -> Result<(), Fail> {
    assert_eq!(rt; misnumbered(rt.alloc(), THREE_STATIONS)?, None);
    Ok(())
}
