//! Answers of `Cdcl`. `certify` accepts each answer before a test looks at it.

use crate::solvers::learners::samples::{ALWAYS, Said, attempted, by_chance, learner, packing};
use crate::solvers::samples::{book, task, task_of};
use cdcl_prove::cdcl::Cdcl;
use quick_fits::quick_fits::QuickFitCounts;
use pack_defs::book::Book;
use pack_defs::worker::{Kind, Worker};
use plain_pack::search::fits;
use std::alloc::Global;
use std::test::Fail;

const THREE: &str = "DOMAIN,1,14,15\nDOMAIN,2,14,15\nDOMAIN,3,14,15\n";

const APART: &str = "CO,14,14,1,2,3\nCO,14,14,2,3\nCO,15,15,1,2,3\nCO,15,15,2,3\n";

// Returns what one solver with this budget answers to six queries in turn. Five are from an auction of the three stations, and the
// last tests stations 1 and 3.
fn of_three_stations(alloc: Global, budget: u32) -> Option<[Said; 6]> {
    let book = book(alloc, THREE, APART)?;
    let worker = learner(budget, 0);
    let mut solver = Cdcl::new(alloc, &worker).ok()?;
    let tasks = [
        task(alloc, &[1], &[]).ok()?,
        task(alloc, &[2], &[]).ok()?,
        task(alloc, &[2, 3], &[(2, 14)]).ok()?,
        task(alloc, &[1, 2], &[(2, 14)]).ok()?,
        task(alloc, &[1, 2, 3], &[(1, 15), (2, 14)]).ok()?,
        task(alloc, &[1, 3], &[(1, 15)]).ok()?,
    ];
    let mut all = [Said::Wrong; 6];
    for (i, task) in tasks.iter().enumerate() {
        all[i] = attempted(alloc, &mut solver, &worker, &book, task, ALWAYS);
    }
    Some(all)
}

#[test]
fn two_of_three_stations_fit_and_three_do_not(rt: HostRuntime) -> Result<(), Fail> {
    let all = of_three_stations(rt.alloc(), 1000).ok_or("no memory")?;
    let fits = [0, 1, 2, 3, 5];
    for i in fits {
        assert_eq!(rt; all[i], Said::Fit);
    }
    assert!(rt; matches!(all[4], Said::Refuted(_)));
    Ok(())
}

#[test]
fn a_budget_of_one_line_is_spent_where_there_is_a_conflict(rt: HostRuntime) -> Result<(), Fail> {
    let all = of_three_stations(rt.alloc(), 1).ok_or("no memory")?;
    let fits = [0, 1, 2, 3, 5];
    for i in fits {
        assert_eq!(rt; all[i], Said::Fit);
    }
    assert_eq!(rt; all[4], Said::Spent(1));
    Ok(())
}

#[test]
fn the_receipts_of_the_incremental_search_are_accepted(rt: HostRuntime) -> Result<(), Fail> {
    let alloc = rt.alloc();
    let book = packing(alloc, 7, 6, |_, _, _| true).ok_or("no memory")?;
    for budget in [1, 7, 40, 100] {
        let worker = learner(budget, 0);
        let mut solver = Cdcl::new(alloc, &worker)?;
        let task = task(alloc, &[0, 1, 2, 3, 4, 5, 6], &[])?;
        let said = attempted(alloc, &mut solver, &worker, &book, &task, ALWAYS);
        assert_eq!(rt; said, Said::Spent(budget as usize));
        assert_eq!(rt; solver.search_counts().spent, 1, "budget {budget}");
    }
    Ok(())
}

// Station 1 has one channel. If station 2 uses that channel, and station 3 the other channel of station 2, both must move.
const CHAIN: &str = "DOMAIN,1,14\nDOMAIN,2,14,15\nDOMAIN,3,15,16\n";

const LINKS: &str = "CO,14,14,1,2\nCO,15,15,2,3\n";

// Returns the quick-fit counters of one solver after each of these queries in turn.
fn quick_fit_counts_after(alloc: Global) -> Option<[QuickFitCounts; 5]> {
    let book = book(alloc, CHAIN, LINKS)?;
    let worker = learner(1000, 0);
    let mut solver = Cdcl::new(alloc, &worker).ok()?;
    let tasks = [
        task_of(alloc, Some(1), &[1, 2, 3], &[(2, 14), (3, 15)]).ok()?,
        task_of(alloc, Some(1), &[1, 2, 3], &[(2, 14), (3, 15)]).ok()?,
        task_of(alloc, Some(2), &[2, 3], &[(3, 15)]).ok()?,
        task_of(alloc, Some(1), &[1, 2], &[(2, 14)]).ok()?,
        task_of(alloc, Some(1), &[1, 2], &[(2, 14)]).ok()?,
    ];
    let mut all = [solver.quick_fit_counts(); 5];
    for (i, task) in tasks.iter().enumerate() {
        if attempted(alloc, &mut solver, &worker, &book, task, ALWAYS) != Said::Fit {
            return None;
        }
        all[i] = solver.quick_fit_counts();
    }
    Some(all)
}

#[test]
fn last_fit_answers_the_next_query_of_its_station(rt: HostRuntime) -> Result<(), Fail> {
    let looked = quick_fit_counts_after(rt.alloc()).ok_or("not a fit")?;
    // In order: the search, the last fit, a free channel, moving station 2, and the last fit again. The fourth query cannot use the
    // last fit, which also moves station 3, and the query does not contain station 3.
    let want = [(0, 0, 0), (1, 0, 0), (1, 1, 0), (1, 1, 1), (2, 1, 1)];
    for (i, looked) in looked.iter().enumerate() {
        assert_eq!(rt; (looked.last, looked.free, looked.repaired), want[i]);
    }
    Ok(())
}

// Returns what a new solver for this worker answers for these stations, none of which has a channel. The poll reports the query as
// current `stands` times.
fn of_all(alloc: Global, book: &Book, worker: &Worker, set: &[u32], stands: u32) -> Option<Said> {
    let mut solver = Cdcl::new(alloc, worker).ok()?;
    let task = task(alloc, set, &[]).ok()?;
    Some(attempted(alloc, &mut solver, worker, book, &task, stands))
}

const STATIONS: [u32; 10] = [0, 1, 2, 3, 4, 5, 6, 7, 8, 9];

// Checks whether one station more than `channels`, no two of which may share a channel, is refuted.
fn is_refuted(alloc: Global, channels: u8) -> Option<bool> {
    let count = channels as usize + 1;
    if count > STATIONS.len() {
        return None;
    }
    let book = packing(alloc, count as u32, channels, |_, _, _| true)?;
    let all = of_all(
        alloc,
        &book,
        &learner(100_000, 0),
        &STATIONS[..count],
        ALWAYS,
    )?;
    Some(matches!(all, Said::Refuted(_)))
}

#[test]
fn more_stations_than_channels_are_refuted(rt: HostRuntime) -> Result<(), Fail> {
    for channels in [3, 4, 5, 6] {
        let refuted = is_refuted(rt.alloc(), channels).ok_or("no memory")?;
        assert!(rt; refuted, "on {channels} channels");
    }
    Ok(())
}

// Returns what a solver with this budget and seed answers for six stations on five channels, no two of which may share one. The
// poll reports the query as current `stands` times.
fn of_six(alloc: Global, budget: u32, seed: u64, stands: u32) -> Option<Said> {
    let book = packing(alloc, 6, 5, |_, _, _| true)?;
    of_all(alloc, &book, &learner(budget, seed), &STATIONS[..6], stands)
}

// The incremental searcher tests one station after another, and the first five fit at once. At the sixth station it spends the
// budget, and makes its receipt of what it has learnt.
#[test]
fn the_poll_is_asked_before_the_first_conflict_and_then_after_each_16(
    rt: HostRuntime,
) -> Result<(), Fail> {
    let said = [
        (0, 1, Said::Moved(6)),
        (5, 16, Said::Moved(6)),
        (6, 16, Said::Spent(16)),
        (6, 17, Said::Moved(6)),
        (7, 17, Said::Spent(17)),
    ];
    for (stands, budget, said) in said {
        let of_six = of_six(rt.alloc(), budget, 0, stands);
        assert_eq!(rt; of_six, Some(said), "{stands} answers, {budget} lines");
    }
    Ok(())
}

// Returns the number of lines that refute the six stations with this seed.
fn lines_by(alloc: Global, seed: u64) -> Option<usize> {
    match of_six(alloc, 100_000, seed, ALWAYS)? {
        Said::Refuted(lines) => Some(lines),
        _ => None,
    }
}

#[test]
fn another_seed_searches_differently(rt: HostRuntime) -> Result<(), Fail> {
    let first = lines_by(rt.alloc(), 0).ok_or("not refuted")?;
    let mut others: u32 = 0;
    for seed in 0..8 {
        let lines = lines_by(rt.alloc(), seed).ok_or("not refuted")?;
        assert_eq!(rt; lines_by(rt.alloc(), seed), Some(lines), "at {seed}");
        if lines != first {
            others = others.saturating_add(1);
        }
    }
    assert!(rt; others > 2, "{others} of 7 differ");
    Ok(())
}

// Returns whether the solver agrees with the plain search on ten stations and three channels, and whether they fit. The solver's
// seed is also the seed of the book.
fn agrees(alloc: Global, seed: u64) -> Option<(bool, bool)> {
    let book = packing(alloc, 10, 3, |s, t, c| by_chance(seed, s, t, c))?;
    let fit = fits(alloc, &book, &STATIONS).ok()?.is_some();
    let said = of_all(alloc, &book, &learner(100_000, seed), &STATIONS, ALWAYS)?;
    let agrees = match said {
        Said::Fit => fit,
        Said::Refuted(_) => !fit,
        _ => false,
    };
    Some((agrees, fit))
}

#[test]
fn says_fit_exactly_where_the_plain_search_does(rt: HostRuntime) -> Result<(), Fail> {
    let mut fitting: u32 = 0;
    for seed in 0..40 {
        let (agrees, fit) = agrees(rt.alloc(), seed).ok_or("no memory")?;
        assert!(rt; agrees, "at {seed}");
        if fit {
            fitting = fitting.saturating_add(1);
        }
    }
    assert!(rt; fitting > 5 && fitting < 35, "{fitting} fit");
    Ok(())
}
