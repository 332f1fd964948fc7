//! A searcher that runs out of memory is empty and can be used again. If a log is too long, it searches for a shorter one.

use crate::solvers::learners::samples::packing;
use incremental_search::searcher::{Progress, Searcher};
use incremental_search::suggestion::Suggestion;
use pack_defs::book::Book;
use pack_defs::channel_map::ChannelMap;
use search_base::checked_access::saturating_u32;
use std::alloc::{AllocError as NoMemory, Global};
use std::test::Fail;

// A searcher's answer for a set: a fit, or a refutation or a receipt with the length of its log in lines. `Nothing`: no answer.
#[derive(Clone, Copy, Debug, PartialEq, Eq)]
enum Told {
    Fit,
    Unfit(usize),
    Spent(usize),
    Nothing,
}

impl Told {
    // Returns the number of lines of the log, if the answer is a refutation.
    fn lines(self) -> Option<usize> {
        match self {
            Told::Unfit(lines) => Some(lines),
            Told::Fit | Told::Spent(_) | Told::Nothing => None,
        }
    }
}

fn suggestion_kind(suggestion: &Suggestion) -> Told {
    match suggestion {
        Suggestion::Fit(_) => Told::Fit,
        Suggestion::Unfit(disproof) => Told::Unfit(disproof.log.lines.len()),
        Suggestion::Spent(log) => Told::Spent(log.lines.len()),
    }
}

// Returns a searcher's answer for stations without channels, within a given effort.
fn asked(
    alloc: Global,
    searcher: &mut Searcher,
    book: &Book,
    set: &[u32],
    none: &ChannelMap,
    effort: u32,
) -> Result<Told, NoMemory> {
    searcher.begin(alloc, book, set, none, None, effort)?;
    for _ in 0..10_000 {
        match searcher.continue_search(alloc, set, none, 16)? {
            Progress::Open => {}
            Progress::Ended(suggestion) => return Ok(suggestion_kind(&suggestion)),
            Progress::Spent | Progress::Lost => break,
        }
    }
    Ok(Told::Nothing)
}

// Checks whether a searcher has no current query.
fn is_empty(alloc: Global, searcher: &mut Searcher, none: &ChannelMap) -> bool {
    matches!(searcher.continue_search(alloc, &[], none, 1), Ok(Progress::Lost))
}

// Returns a searcher's answer for these stations. If memory runs out and the searcher is empty, asks a second time.
fn asked_again(
    alloc: Global,
    searcher: &mut Searcher,
    book: &Book,
    set: &[u32],
    none: &ChannelMap,
    effort: u32,
) -> Result<Told, NoMemory> {
    if let Ok(told) = asked(alloc, searcher, book, set, none, effort) {
        return Ok(told);
    }
    if !is_empty(alloc, searcher, none) {
        return Ok(Told::Nothing);
    }
    asked(alloc, searcher, book, set, none, effort)
}

// Returns a book of six stations on five channels, no two of which may share one. Memory may run out once.
fn six_on_five(alloc: Global) -> Option<Book> {
    let book = packing(alloc, 6, 5, |_, _, _| true);
    if book.is_some() {
        return book;
    }
    packing(alloc, 6, 5, |_, _, _| true)
}

const STATIONS: [u32; 6] = [0, 1, 2, 3, 4, 5];

// Any single allocation of this test may fail (`rt try --fail-alloc`).
#[test]
fn a_searcher_without_memory_can_be_used_again(rt: HostRuntime) -> Result<(), Fail> {
    let alloc = rt.alloc();
    let book = six_on_five(alloc).ok_or("no memory")?;
    let none = ChannelMap::of(alloc, &[])?;
    let mut searcher = Searcher::new(0);
    let five = asked_again(alloc, &mut searcher, &book, &STATIONS[..5], &none, 1000)?;
    assert_eq!(rt; five, Told::Fit);
    let six = asked_again(alloc, &mut searcher, &book, &STATIONS, &none, 100_000)?;
    let long = six.lines().ok_or("not refuted")?;
    let less = saturating_u32(long).saturating_sub(1);
    // The searcher searches again for a shorter log if the first has more lines than a worker may report.
    let again = asked_again(alloc, &mut searcher, &book, &STATIONS, &none, less)?;
    let short = again.lines().ok_or("not refuted by less effort")?;
    assert!(rt; short < long, "{short} of {long}");
    // Until `forget`, the searcher keeps station 0 on air.
    searcher.forget();
    assert!(rt; is_empty(alloc, &mut searcher, &none));
    let others = asked_again(alloc, &mut searcher, &book, &STATIONS[1..], &none, 1000)?;
    assert_eq!(rt; others, Told::Fit);
    Ok(())
}

#[test]
fn a_searcher_that_spends_its_effort_has_a_receipt_of_it(rt: HostRuntime) -> Result<(), Fail> {
    let alloc = rt.alloc();
    let book = six_on_five(alloc).ok_or("no memory")?;
    let none = ChannelMap::of(alloc, &[])?;
    // The effort is for each station, so the first five fit, and the sixth needs more lines than these.
    for effort in [1, 2, 3, 5, 8, 13] {
        let mut searcher = Searcher::new(0);
        let told = asked(alloc, &mut searcher, &book, &STATIONS, &none, effort)?;
        assert_eq!(rt; told, Told::Spent(effort as usize));
    }
    Ok(())
}
