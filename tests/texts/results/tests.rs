//! The result, summary and channels of the three stations' auction, and of one without stations.

use crate::samples::books::three_stations;
use crate::texts::results::samples::{record_of_none, record_of_three, refuted, undecided};
use auction_core::record::{Ending, Record};
use pack_defs::book::Book;
use result_text::channels::channels_csv;
use result_text::counts::summary;
use result_text::rows::result_csv;
use std::alloc::{AllocError as NoMemory, Global};
use std::test::Fail;

// Checks whether the record has this result and summary.
pub(crate) fn tells(
    alloc: Global,
    rec: &Record,
    book: &Book,
    rows: &[u8],
    counts: &[u8],
) -> Result<bool, NoMemory> {
    let result = result_csv(alloc, rec, book)?;
    let lines = summary(alloc, rec, book)?;
    Ok(result.as_slice() == rows && lines.as_slice() == counts)
}

#[test]
fn last_test_refuted(rt: HostRuntime) -> Result<(), Fail> {
    let alloc = rt.alloc();
    let book = three_stations(alloc)?;
    let rec = record_of_three(alloc, 1000, refuted(alloc)?)?;
    let rows = b"facility,outcome,round,price\n1,exit,2,0\n2,exit,1,0\n3,frozen,2,60\n";
    let counts = b"stations 3\non-air 2\nfrozen 1\nundecided 0\ntotal 60\n";
    assert!(rt; tells(alloc, &rec, &book, rows, counts)?);
    Ok(())
}

#[test]
fn last_test_undecided(rt: HostRuntime) -> Result<(), Fail> {
    let alloc = rt.alloc();
    let book = three_stations(alloc)?;
    let rec = record_of_three(alloc, 1, undecided(alloc)?)?;
    let rows = b"facility,outcome,round,price\n1,exit,2,0\n2,exit,1,0\n3,undecided,2,60\n";
    let counts = b"stations 3\non-air 2\nfrozen 1\nundecided 1\ntotal 60\n";
    assert!(rt; tells(alloc, &rec, &book, rows, counts)?);
    Ok(())
}

#[test]
fn no_station(rt: HostRuntime) -> Result<(), Fail> {
    let alloc = rt.alloc();
    let book = three_stations(alloc)?;
    let rec = record_of_none(alloc)?;
    let rows = b"facility,outcome,round,price\n";
    let counts = b"stations 0\non-air 0\nfrozen 0\nundecided 0\ntotal 0\n";
    assert!(rt; tells(alloc, &rec, &book, rows, counts)?);
    Ok(())
}

// Checks whether the record has these channels.
fn has_channels(alloc: Global, rec: &Record, text: &[u8]) -> Result<bool, NoMemory> {
    let channels = channels_csv(alloc, rec)?;
    Ok(channels.as_slice() == text)
}

#[test]
fn channels_are_written(rt: HostRuntime) -> Result<(), Fail> {
    let alloc = rt.alloc();
    let three = record_of_three(alloc, 1000, refuted(alloc)?)?;
    assert!(rt; has_channels(alloc, &three, b"facility,channel\n1,15\n2,14\n")?);
    let none = record_of_none(alloc)?;
    assert!(rt; has_channels(alloc, &none, b"facility,channel\n")?);
    Ok(())
}
