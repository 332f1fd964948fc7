//! Which queries each kind of quick fit answers, and which queries none answers.

use crate::solvers::quick_fits::samples::task;
use crate::solvers::samples::book;
use cert_types::query::is_query;
use quick_fits::quick_fits::{QuickFits, QuickFitCounts};
use pack_defs::book::Book;
use std::alloc::{AllocError as NoMemory, Global};
use std::test::Fail;

// Station 2 has only channel 14. Stations 1 and 3 each have two pairs on 14 and one on 15. Station 4 has one pair on 14 and two
// on 15.
const DOMAINS: &str = "DOMAIN,1,14,15\nDOMAIN,2,14\nDOMAIN,3,14,15\nDOMAIN,4,14,15\n";

const ROWS: &str = "CO,14,14,1,2,3\nCO,14,14,2,3,4\nCO,15,15,1,4\nCO,15,15,3,4\n";

// The tested station, the last channels, and the entries that the quick fit changes; no entries if no quick fit is found.
type Row = (Option<u32>, &'static [(u32, u8)], &'static [(u32, u8)]);

// Checks whether the quick fit of this row is found.
fn find(alloc: Global, looks: &mut QuickFits, book: &Book, row: Row) -> Result<bool, NoMemory> {
    let (station, last, found) = row;
    let task = task(alloc, station, last)?;
    if !is_query(book, &task) {
        return Ok(false);
    }
    match looks.quick_fit(alloc, book, &task)? {
        Some(fit) => Ok(fit.entries() == found),
        None => Ok(found.is_empty()),
    }
}

const APART: &[Row] = &[
    // A free channel; of two free channels, the one with fewer pairs.
    (Some(2), &[], &[(2, 14)]),
    (Some(1), &[(4, 15)], &[(1, 14)]),
    (Some(1), &[(2, 14)], &[(1, 15)]),
    (Some(1), &[], &[(1, 15)]),
    (Some(4), &[], &[(4, 14)]),
    // One station moves, with a number below or above the tested one.
    (Some(2), &[(1, 14)], &[(1, 15), (2, 14)]),
    (Some(2), &[(3, 14)], &[(2, 14), (3, 15)]),
    // On channel 14 station 3 cannot move; on 15 station 4 can.
    (Some(1), &[(3, 14), (4, 15)], &[(1, 15), (4, 14)]),
    // The one station in the way cannot move.
    (Some(2), &[(3, 14), (4, 15)], &[]),
    // Two stations are in the way.
    (Some(2), &[(3, 14), (4, 14)], &[]),
    // No station is tested.
    (None, &[(1, 14)], &[]),
    (None, &[], &[]),
];

#[test]
fn each_quick_fit_finds_its_fit(rt: HostRuntime) -> Result<(), Fail> {
    let alloc = rt.alloc();
    let book = book(alloc, DOMAINS, ROWS).ok_or("no book")?;
    for (i, row) in APART.iter().enumerate() {
        let mut looks = QuickFits::new(alloc);
        assert!(rt; find(alloc, &mut looks, &book, *row)?, "row {i}");
    }
    Ok(())
}

// The rows for one `QuickFits`, in turn.
const IN_TURN: &[Row] = &[
    (Some(3), &[], &[(3, 15)]),
    (Some(3), &[(1, 14)], &[(3, 15)]),
    // Station 4 uses the channel of the last fit.
    (Some(3), &[(4, 15)], &[(3, 14)]),
    // A search for a free channel would find 15; the last fit has 14.
    (Some(3), &[], &[(3, 14)]),
    (Some(3), &[(1, 14), (4, 15)], &[(3, 15), (4, 14)]),
    (Some(3), &[(1, 14), (4, 15)], &[(3, 15), (4, 14)]),
    // The last fit is kept per tested station.
    (Some(1), &[], &[(1, 15)]),
];

#[test]
fn last_fit_is_reused_while_it_fits(rt: HostRuntime) -> Result<(), Fail> {
    let alloc = rt.alloc();
    let book = book(alloc, DOMAINS, ROWS).ok_or("no book")?;
    let mut looks = QuickFits::new(alloc);
    for (i, row) in IN_TURN.iter().enumerate() {
        assert!(rt; find(alloc, &mut looks, &book, *row)?, "row {i}");
    }
    let looked = QuickFitCounts {
        last: 3,
        free: 3,
        repaired: 1,
    };
    assert_eq!(rt; looks.quick_fit_counts(), looked);
    Ok(())
}
