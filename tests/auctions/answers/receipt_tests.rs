//! Each invalid receipt of lines is rejected at the place of its first error.

use crate::auctions::answers::samples::{
    CLAUSE_AGAIN, EMPTY_AGAIN, NOT_ONE, NOT_TWO, OUT_OF_TURN, PADDED, PADDED_LINE, THE_END, Text,
    WIDER, receipt,
};
use crate::auctions::answers::tests::fault;
use cert_types::answer::Place;
use std::alloc::{AllocError as NoMemory, Global};
use std::test::Fail;

const COUNT: Option<Place> = Some(Place::Count);

const FIRST: Option<Place> = Some(Place::LineAt(1));

const SECOND: Option<Place> = Some(Place::LineAt(2));

const THIRD: Option<Place> = Some(Place::LineAt(3));

// Returns the index of the first case whose receipt has another result than expected. A case has a budget and the lines of a log.
fn wrong_receipt(
    alloc: Global,
    cases: &[(u32, &[Text], Option<Place>)],
) -> Result<Option<usize>, NoMemory> {
    for (i, (budget, lines, want)) in cases.iter().enumerate() {
        if fault(alloc, *budget, receipt(alloc, lines)?)? != *want {
            return Ok(Some(i));
        }
    }
    Ok(None)
}

#[test]
fn faults_of_receipts(rt: HostRuntime) -> Result<(), Fail> {
    const CASES: &[(u32, &[Text], Option<Place>)] = &[
        (1, &[NOT_ONE], None),
        (2, &[NOT_ONE], COUNT),
        (1, &[NOT_ONE, NOT_ONE], COUNT),
        (1, &[OUT_OF_TURN], FIRST),
        (2, &[NOT_ONE, THE_END], SECOND),
    ];
    assert_eq!(rt; wrong_receipt(rt.alloc(), CASES)?, None);
    Ok(())
}

#[test]
fn redundant_lines(rt: HostRuntime) -> Result<(), Fail> {
    const CASES: &[(u32, &[Text], Option<Place>)] = &[
        // A clause is a subset of the line, or equals it.
        (1, &[PADDED], FIRST),
        (1, &[CLAUSE_AGAIN], FIRST),
        (2, &[NOT_TWO, PADDED], SECOND),
        // An earlier line is a subset of the line, or equals it.
        (2, &[NOT_ONE, NOT_ONE], SECOND),
        (2, &[NOT_ONE, PADDED_LINE], SECOND),
        (2, &[WIDER, WIDER], SECOND),
        (3, &[NOT_ONE, NOT_TWO, PADDED_LINE], THIRD),
        (3, &[NOT_ONE, NOT_TWO, NOT_ONE], THIRD),
        // The line is a subset of an earlier one, but no earlier line is a subset of it.
        (2, &[WIDER, NOT_ONE], None),
        (2, &[NOT_ONE, NOT_TWO], None),
        (3, &[WIDER, NOT_ONE, NOT_TWO], None),
        (3, &[WIDER, NOT_ONE, WIDER], THIRD),
    ];
    assert_eq!(rt; wrong_receipt(rt.alloc(), CASES)?, None);
    Ok(())
}

#[test]
fn first_of_two_faults_of_receipts(rt: HostRuntime) -> Result<(), Fail> {
    const CASES: &[(u32, &[Text], Option<Place>)] = &[
        (3, &[OUT_OF_TURN, THE_END], COUNT),
        (3, &[OUT_OF_TURN, EMPTY_AGAIN, NOT_ONE], FIRST),
        (3, &[NOT_ONE, THE_END, OUT_OF_TURN], SECOND),
        // A line that is not new with an empty line or with one that does not follow, in both orders.
        (2, &[PADDED, THE_END], FIRST),
        (3, &[NOT_ONE, THE_END, NOT_ONE], SECOND),
        (2, &[PADDED, OUT_OF_TURN], FIRST),
        (2, &[OUT_OF_TURN, PADDED], FIRST),
    ];
    assert_eq!(rt; wrong_receipt(rt.alloc(), CASES)?, None);
    Ok(())
}
