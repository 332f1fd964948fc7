//! Auctions driven by postings: the reply to each posting, and how the auction ends.

use crate::auctions::auctions::samples::{Crew, Values, two_rounds};
use crate::samples::answers::Given;
use crate::samples::books::three_stations;
use crate::samples::postings::post;
use auction_core::auction::Auction;
use auction_core::posting::Reply;
use auction_core::record::{Ending, Record, Shown, Step};
use cert_types::answer::Place;
use pack_defs::book::Book;
use pack_defs::order::Order;
use pack_defs::pair::Pair;
use pack_defs::scenario::Scenario;
use std::alloc::{AllocError as NoMemory, Global};
use std::test::Fail;

// The expected reply to a posting.
#[derive(Clone, Copy)]
pub(crate) enum Want {
    // The query is settled, and the next one has this number.
    Next(u64),
    // The query is settled, and was the last.
    Last,
    // Another query is current, with this number.
    Wrong(u64),
    Noted,
    Again,
    Stranger,
    Ended,
    Bad(Place),
}

fn reply(want: Want) -> Reply {
    match want {
        Want::Next(number) => Reply::Advanced { next: Some(number) },
        Want::Last => Reply::Advanced { next: None },
        Want::Wrong(now) => Reply::WrongQuery { now },
        Want::Noted => Reply::Noted,
        Want::Again => Reply::AlreadySpent,
        Want::Stranger => Reply::Stranger,
        Want::Ended => Reply::Ended,
        Want::Bad(place) => Reply::Rejected { place },
    }
}

// The worker and the query of a posting, its answer, and the expected reply.
pub(crate) type Case = (u32, u64, Given, Want);

// Posts these cases in order. Returns whether each gets its expected reply.
pub(crate) fn are_replies(
    alloc: Global,
    auction: &mut Auction,
    cases: &[Case],
) -> Result<bool, NoMemory> {
    for (worker, number, given, want) in cases {
        if post(alloc, auction, *worker, *number, *given)? != reply(*want) {
            return Ok(false);
        }
    }
    Ok(true)
}

// The end of an auction: the ending, the last query's number plus one, the number of steps, and the total in cents.
pub(crate) type End = (Ending, u64, usize, u64);

// The end of an auction and more of its record: how many steps are `Shown::Same`, whether the last one is undecided, and station 1's
// channel.
pub(crate) type Answered = (End, usize, bool, Option<u8>);

pub(crate) fn came(left: &Record, number: u64) -> Answered {
    let steps = left.steps.as_slice();
    let end = (left.ending, number, steps.len(), left.total);
    (end, same(steps), is_left_open(steps), left.map.get(1))
}

// Counts the steps that are settled as the one before.
fn same(steps: &[Step]) -> usize {
    let mut count: usize = 0;
    for step in steps {
        if is_same(step) {
            count = count.saturating_add(1);
        }
    }
    count
}

fn is_same(step: &Step) -> bool {
    matches!(step.shown, Shown::Same)
}

fn is_left_open(steps: &[Step]) -> bool {
    let Some(step) = steps.last() else {
        return false;
    };
    matches!(step.shown, Shown::Undecided(_))
}

// Returns how the auction ended after these postings. Returns `None` if a reply is not the expected one, or if the auction did not end.
pub(crate) fn ended(
    alloc: Global,
    auction: Auction,
    sc: Scenario,
    cases: &[Case],
) -> Result<Option<Answered>, NoMemory> {
    let mut auction = auction;
    if !are_replies(alloc, &mut auction, cases)? || !auction.ended() {
        return Ok(None);
    }
    let number = auction.number();
    let record = auction.into_result(alloc, sc)?;
    Ok(Some(came(&record, number)))
}

// Plays the auction of a scenario and a book from its start.
pub(crate) fn played(
    alloc: Global,
    sc: Scenario,
    book: &Book,
    order: Order,
    cases: &[Case],
) -> Result<Option<Answered>, NoMemory> {
    let auction = Auction::start(alloc, &sc, book, order)?;
    ended(alloc, auction, sc, cases)
}

// Plays an auction of three stations and two rounds.
fn in_two_rounds(
    alloc: Global,
    values: Values,
    workers: Crew,
    cases: &[Case],
) -> Result<Option<Answered>, NoMemory> {
    let sc = two_rounds(alloc, values, workers)?;
    played(alloc, sc, &three_stations(alloc)?, Order::ByFacility, cases)
}

// A pair that is not in the book, for a false claim that it is dead.
const STRAY: Pair = Pair {
    f: 1,
    a: 14,
    g: 4,
    b: 14,
};

const ALL_ASKED: Values = (Some(50), Some(70), Some(10));

pub(crate) const ALL_ON_AIR: Values = (None, None, None);

const TWO_ROUNDS: &[(Values, Crew, &[Case], Answered)] = &[
    // An answer to an old query. The queries are stations 1, 2 and 3 in round 1, then 1 and 3 in round 2, where 3 is frozen at 60 cents.
    (
        ALL_ASKED,
        Crew::Learner,
        &[
            (0, 1, Given::Fit(1, 14), Want::Next(2)),
            (0, 2, Given::Fit(2, 14), Want::Next(3)),
            (0, 3, Given::Fit(3, 15), Want::Next(4)),
            (0, 3, Given::Fit(3, 15), Want::Wrong(4)),
            (0, 4, Given::Fit(1, 15), Want::Next(5)),
            (0, 5, Given::Refuted, Want::Last),
            (0, 6, Given::Refuted, Want::Ended),
            (9, 1, Given::Spent, Want::Ended),
        ],
        ((Ending::Done, 6, 5, 60), 0, false, Some(15)),
    ),
    // Every reply. With two workers of budget 1, the last test is settled once both have spent their budgets.
    (
        ALL_ASKED,
        Crew::ShortLearners,
        &[
            (0, 9, Given::Fit(1, 14), Want::Wrong(1)),
            (2, 1, Given::Fit(1, 14), Want::Stranger),
            (0, 1, Given::Fit(2, 14), Want::Bad(Place::Station(1))),
            (0, 1, Given::Fit(1, 14), Want::Next(2)),
            (1, 2, Given::Fit(2, 14), Want::Next(3)),
            (0, 3, Given::Fit(3, 15), Want::Next(4)),
            (1, 4, Given::Fit(1, 15), Want::Next(5)),
            (0, 5, Given::Spent, Want::Noted),
            (0, 5, Given::Spent, Want::Again),
            (2, 5, Given::Spent, Want::Stranger),
            (1, 5, Given::Spent, Want::Last),
            (1, 6, Given::Spent, Want::Ended),
        ],
        ((Ending::Done, 6, 5, 60), 0, true, Some(15)),
    ),
    // A learner and a walker, both of budget 1; neither may spend it as the other does. In round 2, with 1 on 15 and 2 on 14, a walk starts
    // with 3 on 14. Moving 3 to 15 leaves a violation.
    (
        ALL_ASKED,
        Crew::ShortLearnerAndWalker,
        &[
            (0, 1, Given::Moved(3, 15), Want::Bad(Place::Kind)),
            (1, 1, Given::Spent, Want::Bad(Place::Kind)),
            (0, 1, Given::Fit(1, 14), Want::Next(2)),
            (1, 2, Given::Fit(2, 14), Want::Next(3)),
            (0, 3, Given::Fit(3, 15), Want::Next(4)),
            (1, 4, Given::Fit(1, 15), Want::Next(5)),
            (1, 5, Given::Dead(STRAY), Want::Bad(Place::PairOf(STRAY))),
            (1, 5, Given::Moved(3, 15), Want::Noted),
            (0, 5, Given::Spent, Want::Last),
        ],
        ((Ending::Done, 6, 5, 60), 0, true, Some(15)),
    ),
    // The test of the start ends the auction: by a refutation, or by the only worker's receipt.
    (
        ALL_ON_AIR,
        Crew::Learner,
        &[(0, 1, Given::Refuted, Want::Last)],
        ((Ending::StartRefuted, 2, 0, 0), 0, false, None),
    ),
    (
        ALL_ON_AIR,
        Crew::ShortLearner,
        &[(0, 1, Given::Spent, Want::Last)],
        ((Ending::StartUndecided, 2, 0, 0), 0, false, None),
    ),
    // Tests settled as the one before. Station 2 is on air from the start. Stations 1 and 3 are tested, and the three together lack a
    // channel. With a value of 50 cents, station 1 goes on air in round 2. The second test of station 3 then asks about all three stations,
    // and station 3 is frozen at 60 cents.
    (
        (Some(50), None, Some(10)),
        Crew::Learner,
        BESIDE_SECOND,
        ((Ending::Done, 5, 4, 60), 1, false, Some(15)),
    ),
    // With a value of 10 cents, both tests of round 2 and the last test of station 1 are settled as the one before. Station 3 is frozen in
    // round 3, at 20 cents. In both cases station 1 has the channel of round 1.
    (
        (Some(10), None, Some(10)),
        Crew::Learner,
        BESIDE_SECOND,
        ((Ending::Done, 5, 6, 20), 3, false, Some(15)),
    ),
];

pub(crate) const BESIDE_SECOND: &[Case] = &[
    (0, 1, Given::Fit(2, 14), Want::Next(2)),
    (0, 2, Given::Fit(1, 15), Want::Next(3)),
    (0, 3, Given::Fit(3, 15), Want::Next(4)),
    (0, 4, Given::Refuted, Want::Last),
];

#[test]
fn postings_get_their_replies(rt: HostRuntime) -> Result<(), Fail> {
    for (values, workers, cases, want) in TWO_ROUNDS {
        let came = in_two_rounds(rt.alloc(), *values, *workers, cases)?;
        assert_eq!(rt; came, Some(*want));
    }
    Ok(())
}

// Whether a receipt of worker 0, 1 and 7 is noted, whether the auction has ended, and how many postings were made.
type StationStatus = ((bool, bool, bool), bool, u64);

// Returns the state of an auction after these postings, or `None` if a reply is not the expected one.
fn stands(alloc: Global, auction: Auction, cases: &[Case]) -> Result<Option<StationStatus>, NoMemory> {
    let mut auction = auction;
    if !are_replies(alloc, &mut auction, cases)? {
        return Ok(None);
    }
    let noted = (auction.noted(0), auction.noted(1), auction.noted(7));
    Ok(Some((noted, auction.ended(), auction.posted())))
}

// Returns the state of an auction whose stations all start on air. One learner has a budget of 1, the other 1000.
fn standing(alloc: Global, cases: &[Case]) -> Result<Option<StationStatus>, NoMemory> {
    let sc = two_rounds(alloc, ALL_ON_AIR, Crew::ShortAndLong)?;
    let book = three_stations(alloc)?;
    let auction = Auction::start(alloc, &sc, &book, Order::ByFacility)?;
    stands(alloc, auction, cases)
}

// A receipt is noted for its own worker only, and dropped once another worker's answer settles the query.
#[test]
fn a_noted_receipt(rt: HostRuntime) -> Result<(), Fail> {
    const ROWS: &[(&[Case], StationStatus)] = &[
        (&[], ((false, false, false), false, 0)),
        (
            &[(0, 1, Given::Spent, Want::Noted)],
            ((true, false, false), false, 1),
        ),
        (
            &[
                (0, 1, Given::Spent, Want::Noted),
                (1, 1, Given::Refuted, Want::Last),
            ],
            ((false, false, false), true, 2),
        ),
    ];
    for (cases, want) in ROWS {
        assert_eq!(rt; standing(rt.alloc(), cases)?, Some(*want));
    }
    Ok(())
}
