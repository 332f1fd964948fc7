//! Helpers: the outcome of verifying a transcript, and an auction by two workers.

use crate::samples::scenarios::three_bids;
use crate::samples::workers::{learner, walker};
use cert_types::answer::Place;
use pack_defs::book::Book;
use pack_defs::pair::Pair;
use pack_defs::scenario::Scenario;
use std::alloc::{AllocError as NoMemory, Global};
use transcript_check::verify::verify;
use transcript_check::{ShownWhy, VerifyErr};
use transcript_text::TextErr;
use transcript_text::read::read_transcript;

// A text, its first invalid step, and the cause. The step is ignored if all steps are valid.
pub(crate) type Row<'a> = (&'a [u8], u64, Option<ShownWhy>);

// Returns the error that `verify` finds in a text. `read_by` reads the text; the auction may have another scenario.
fn found(
    alloc: Global,
    read_by: &Scenario,
    sc: &Scenario,
    book: &Book,
    text: &[u8],
) -> Result<Option<VerifyErr>, TextErr> {
    let transcript = read_transcript(alloc, text, read_by, book)?;
    match verify(alloc, book, sc, transcript) {
        Ok(_) => Ok(None),
        Err(e) => Ok(Some(e)),
    }
}

// Checks whether the outcome is the row's.
pub(crate) fn is_as_said(found: Option<VerifyErr>, row: Row<'_>) -> bool {
    match (found, row.2) {
        (None, None) => true,
        (Some(VerifyErr::NotShown { step, why }), Some(wanted)) => step == row.1 && why == wanted,
        _ => false,
    }
}

// Checks whether the text of the row, after `before`, has the outcome of the row.
fn is_found(
    alloc: Global,
    read_by: &Scenario,
    sc: &Scenario,
    book: &Book,
    before: &[u8],
    row: Row<'_>,
) -> Result<bool, NoMemory> {
    let mut text = Vec::from_slice(alloc, before)?;
    text.extend_from_slice(row.0)?;
    let Ok(found) = found(alloc, read_by, sc, book, &text) else {
        return Ok(false);
    };
    Ok(is_as_said(found, row))
}

// Returns the first text that, after `before`, has another outcome.
pub(crate) fn misjudged<'a>(
    alloc: Global,
    read_by: &Scenario,
    sc: &Scenario,
    book: &Book,
    before: &[u8],
    rows: &[Row<'a>],
) -> Result<Option<&'a [u8]>, NoMemory> {
    for row in rows {
        if !is_found(alloc, read_by, sc, book, before, *row)? {
            return Ok(Some(row.0));
        }
    }
    Ok(None)
}

// All steps are valid.
pub(crate) const SOUND: Option<ShownWhy> = None;

pub(crate) const ORDER: Option<ShownWhy> = Some(ShownWhy::Order);

pub(crate) const KIND: Option<ShownWhy> = Some(ShownWhy::NotValid(Place::Kind));

pub(crate) const STATION_3: Option<ShownWhy> = Some(ShownWhy::NotValid(Place::Station(3)));

// Stations 1 and 2 on channel 14.
pub(crate) const APART: Option<ShownWhy> = Some(ShownWhy::NotValid(Place::PairOf(Pair {
    f: 1,
    a: 14,
    g: 2,
    b: 14,
})));

// Returns the auction of stations 1 to 3 by a learner and a walker. Their budgets are one line and one move.
pub(crate) fn two_workers(alloc: Global) -> Result<Scenario, NoMemory> {
    let workers = vec![in alloc; learner(1), walker(1)]?;
    three_bids(alloc, 70, 1, workers)
}
