//! The transcripts of auctions that the first worker's answers run to the end.

use crate::samples::answers::Given;
use crate::samples::books::three_stations;
use crate::samples::postings::record_after;
use crate::samples::scenarios::three_bids_by_one;
use auction_core::record::Ending;
use pack_defs::book::Book;
use pack_defs::order::Order;
use pack_defs::scenario::Scenario;
use std::alloc::{AllocError as NoMemory, Global};
use transcript_text::write::write_transcript;

// Returns the transcript of this auction, or `None` if these answers do not run it to the end.
pub(crate) fn written(
    alloc: Global,
    sc: Scenario,
    book: &Book,
    order: Order,
    answers: &[Given],
) -> Result<Option<Vec<u8>>, NoMemory> {
    let Some(rec) = record_after(alloc, sc, book, order, answers)? else {
        return Ok(None);
    };
    if rec.ending != Ending::Done {
        return Ok(None);
    }
    Ok(Some(write_transcript(alloc, &rec, book)?))
}

// Returns the transcript of the three stations' auction, with this value of station 2 and this budget of the worker.
pub(crate) fn of_three(
    alloc: Global,
    value: u64,
    budget: u32,
    order: Order,
    answers: &[Given],
) -> Result<Vec<u8>, NoMemory> {
    let book = three_stations(alloc)?;
    let sc = three_bids_by_one(alloc, value, 1, budget)?;
    match written(alloc, sc, &book, order, answers)? {
        Some(text) => Ok(text),
        None => Ok(Vec::new(alloc)),
    }
}
