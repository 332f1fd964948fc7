//! Records of transcripts.

use auction_core::record::Record;
use pack_defs::book::Book;
use pack_defs::scenario::Scenario;
use std::alloc::Global;
use transcript_check::verify::verify;
use transcript_text::read::read_transcript;

// Returns the record of this transcript, or `None` if the transcript is not valid.
pub(crate) fn record_in(alloc: Global, sc: &Scenario, book: &Book, text: &[u8]) -> Option<Record> {
    let Ok(transcript) = read_transcript(alloc, text, sc, book) else {
        return None;
    };
    match verify(alloc, book, sc, transcript) {
        Ok(rec) => Some(rec),
        Err(_) => None,
    }
}
