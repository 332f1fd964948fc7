//! A transcript that is read in pieces has the same outcome as the complete text, for every cut.

use pack_defs::book::Book;
use pack_defs::order::Order;
use pack_defs::scenario::Scenario;
use std::alloc::Global;
use transcript_text::TextErr;
use transcript_text::reader::TranscriptReader;

// What is read of a text: the order of its tests and the number of its steps.
pub(crate) type Answer = Result<(Order, usize), TextErr>;

// Reads a text in two pieces. If `into_bytes` is set, the second piece is cut into single bytes.
fn read_cut(
    alloc: Global,
    sc: &Scenario,
    book: &Book,
    text: &[u8],
    cut: usize,
    into_bytes: bool,
) -> Answer {
    let cut = cut.min(text.len());
    let mut reader = TranscriptReader::new(alloc).feed(sc, book, &text[..cut])?;
    if into_bytes {
        for byte in &text[cut..] {
            reader = reader.feed(sc, book, &[*byte])?;
        }
    } else {
        reader = reader.feed(sc, book, &text[cut..])?;
    }
    let transcript = reader.finish(sc, book)?;
    Ok((transcript.order, transcript.steps.as_slice().len()))
}

// Checks whether two outcomes are equal.
pub(crate) fn is_same(answer: Answer, other: Answer) -> bool {
    match (answer, other) {
        (Ok(said), Ok(wanted)) => said.0 == wanted.0 && said.1 == wanted.1,
        (Err(why), Err(wanted)) => why == wanted,
        _ => false,
    }
}

// Checks whether a text has this outcome in any two pieces, and byte by byte.
pub(crate) fn reads_in_pieces(
    alloc: Global,
    sc: &Scenario,
    book: &Book,
    text: &[u8],
    answer: Answer,
) -> bool {
    for cut in 0..text.len() + 1 {
        if !is_same(read_cut(alloc, sc, book, text, cut, false), answer) {
            return false;
        }
    }
    is_same(read_cut(alloc, sc, book, text, 0, true), answer)
}
