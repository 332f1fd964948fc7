//! Auctions of three stations, run by postings, and the texts of their records.

use crate::samples::answers::{FOUR_FITS, Given, THREE_FITS};
use crate::samples::books::three_stations;
use crate::samples::postings::record_after;
use crate::samples::scenarios::three_bids_by_one;
use crate::texts::results::tests::tells;
use auction_core::record::Ending;
use pack_defs::order::Order;
use std::alloc::{AllocError as NoMemory, Global};
use std::test::Fail;

// The order of tests in a round, the value of station 2, and the volume of station 3.
#[derive(Clone, Copy)]
struct Terms {
    order: Order,
    value: u64,
    volume: u32,
}

const TERMS: Terms = Terms {
    order: Order::ByFacility,
    value: 70,
    volume: 1,
};

// Checks whether the auction on these terms, with these answers, leaves this channel map, result and summary.
fn outputs_match(
    alloc: Global,
    terms: Terms,
    answers: &[Given],
    map: &[(u32, u8)],
    rows: &[u8],
    counts: &[u8],
) -> Result<bool, NoMemory> {
    let book = three_stations(alloc)?;
    let sc = three_bids_by_one(alloc, terms.value, terms.volume, 1000)?;
    let Some(rec) = record_after(alloc, sc, &book, terms.order, answers)? else {
        return Ok(false);
    };
    if rec.ending != Ending::Done || rec.map.entries() != map {
        return Ok(false);
    }
    tells(alloc, &rec, &book, rows, counts)
}

// As `FOUR_FITS`, but with stations 1 and 2 on the other channel.
const OTHER_FITS: &[Given] = &[
    Given::Fit(1, 14),
    Given::Fit(2, 15),
    Given::Fit(3, 14),
    Given::Fit(1, 14),
    Given::Refuted,
];

// Station 3 is tested first, and its last test comes after the last one of station 1.
const FITS_BY_VOLUME: &[Given] = &[
    Given::Fit(3, 14),
    Given::Fit(1, 14),
    Given::Fit(2, 14),
    Given::Fit(3, 15),
    Given::Fit(1, 15),
    Given::Refuted,
];

// Two assignments of channels give the same result and summary, but different channel maps. The queries are stations 1, 2 and 3 in round 1,
// and 1 and 3 in round 2. Stations 1 and 2 go on air.
#[test]
fn either_way(rt: HostRuntime) -> Result<(), Fail> {
    let alloc = rt.alloc();
    let rows = b"facility,outcome,round,price\n1,exit,2,0\n2,exit,1,0\n3,frozen,2,60\n";
    let counts = b"stations 3\non-air 2\nfrozen 1\nundecided 0\ntotal 60\n";
    assert!(rt; outputs_match(alloc, TERMS, FOUR_FITS, &[(1, 15), (2, 14)], rows, counts)?);
    assert!(rt; outputs_match(alloc, TERMS, OTHER_FITS, &[(1, 14), (2, 15)], rows, counts)?);
    Ok(())
}

// The order of tests decides when station 3 is frozen, and at which price. Station 3 has volume 2. By volume it is tested first: in
// round 2 with only station 2, and in round 3 after station 1. It is then bought for 40 cents. By facility it is tested after station 1
// in round 2, and bought for 120 cents.
#[test]
fn in_either_order(rt: HostRuntime) -> Result<(), Fail> {
    let alloc = rt.alloc();
    let terms = Terms { volume: 2, ..TERMS };
    let by_volume = Terms {
        order: Order::ByVolume,
        ..terms
    };
    let rows = b"facility,outcome,round,price\n1,exit,2,0\n2,exit,1,0\n3,frozen,3,40\n";
    let counts = b"stations 3\non-air 2\nfrozen 1\nundecided 0\ntotal 40\n";
    assert!(rt;
        outputs_match(
            alloc,
            by_volume,
            FITS_BY_VOLUME,
            &[(1, 15), (2, 14)],
            rows,
            counts
        )?
    );
    let rows = b"facility,outcome,round,price\n1,exit,2,0\n2,exit,1,0\n3,frozen,2,120\n";
    let counts = b"stations 3\non-air 2\nfrozen 1\nundecided 0\ntotal 120\n";
    assert!(rt; outputs_match(alloc, terms, FOUR_FITS, &[(1, 15), (2, 14)], rows, counts)?);
    Ok(())
}

// A repeated test needs no query. Station 2 is on air from the start, so station 1 is tested with it in both rounds. Station 1 goes on air
// with the fit of its first test.
#[test]
fn prove_same_test_needs_no_query(rt: HostRuntime) -> Result<(), Fail> {
    let alloc = rt.alloc();
    let terms = Terms {
        value: 101,
        ..TERMS
    };
    let rows = b"facility,outcome,round,price\n1,exit,2,0\n2,start,0,0\n3,frozen,2,60\n";
    let counts = b"stations 3\non-air 2\nfrozen 1\nundecided 0\ntotal 60\n";
    assert!(rt; outputs_match(alloc, terms, THREE_FITS, &[(1, 15), (2, 14)], rows, counts)?);
    Ok(())
}
