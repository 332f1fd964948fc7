//! Live auctions: the owners' answers decide in place of values.

use crate::auctions::auctions::samples::{Crew, two_rounds};
use crate::auctions::auctions::tests::{ALL_ON_AIR, BESIDE_SECOND, Answered, Case, Want, ended};
use crate::samples::answers::Given;
use crate::samples::books::three_stations;
use crate::samples::owners::{AS_BID, SECOND_DECLINES, SaidLines, owners_of_lines};
use auction_core::auction::Auction;
use auction_core::record::Ending;
use pack_defs::book::Book;
use pack_defs::order::Order;
use pack_defs::owners::Owners;
use pack_defs::scenario::Scenario;
use std::alloc::{AllocError as NoMemory, Global};
use std::test::Fail;

// Plays the live auction of a scenario and a book with these owners, and returns how it ended.
fn played_live(
    alloc: Global,
    sc: &Scenario,
    book: &Book,
    owners: &Owners,
    cases: &[Case],
) -> Result<Option<Answered>, NoMemory> {
    let live = sc.with_owners(alloc, owners)?;
    let auction = Auction::start_live(alloc, sc, book, owners, Order::ByFacility)?;
    ended(alloc, auction, live, cases)
}

// Plays the live auction of three stations without values.
fn of_three(alloc: Global, owners: &Owners, cases: &[Case]) -> Result<Option<Answered>, NoMemory> {
    let sc = two_rounds(alloc, ALL_ON_AIR, Crew::Learner)?;
    played_live(alloc, &sc, &three_stations(alloc)?, owners, cases)
}

const LIVE: &[(SaidLines, &[Case], Answered)] = &[
    // Station 2 leaves in round 1 and station 1 in round 2. Station 3 never leaves, so it is frozen at 60 cents.
    (
        AS_BID,
        &[
            (0, 1, Given::Fit(1, 14), Want::Next(2)),
            (0, 2, Given::Fit(2, 14), Want::Next(3)),
            (0, 3, Given::Fit(3, 15), Want::Next(4)),
            (0, 4, Given::Fit(1, 15), Want::Next(5)),
            (0, 5, Given::Refuted, Want::Last),
        ],
        ((Ending::Done, 6, 5, 60), 0, false, Some(15)),
    ),
    // Station 2 has no answer to the opening offer, so it is on air from the start.
    (
        SECOND_DECLINES,
        BESIDE_SECOND,
        ((Ending::Done, 5, 4, 60), 1, false, Some(15)),
    ),
];

#[test]
fn owner_lines_decide_who_stays(rt: HostRuntime) -> Result<(), Fail> {
    for (lines, cases, want) in LIVE {
        let owners = owners_of_lines(rt.alloc(), lines)?;
        let came = of_three(rt.alloc(), &owners, cases)?;
        assert_eq!(rt; came, Some(*want));
    }
    Ok(())
}
