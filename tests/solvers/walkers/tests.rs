//! Answers of the walk. `certify` accepts each answer before a test looks at it.

use crate::solvers::samples::{book, task};
use crate::solvers::walkers::samples::{Said, Turning, attempted, mark_of, row, steady, walker};
use std::alloc::Global;
use std::test::Fail;

// Station 1 has only channel 14; station 2 may move to 15.
const TWO: (&str, &str) = ("DOMAIN,1,14\nDOMAIN,2,14,15\n", "CO,14,14,1,2\n");

// Stations 1 to 3 may not share their two channels. Stations 4 and 5 have only channel 20, which they may not share.
const FIVE: (&str, &str) = (
    "DOMAIN,1,14,15\nDOMAIN,2,14,15\nDOMAIN,3,14,15\nDOMAIN,4,20\nDOMAIN,5,20\n",
    "CO,14,14,1,2,3\nCO,14,14,2,3\nCO,15,15,1,2,3\nCO,15,15,2,3\nCO,20,20,4,5\n",
);

const THREE: [u32; 3] = [1, 2, 3];

// Returns what a walk with this budget and seed answers for a set without channels.
fn of_set(alloc: Global, files: (&str, &str), set: &[u32], budget: u32, seed: u64) -> Option<Said> {
    let book = book(alloc, files.0, files.1)?;
    let task = task(alloc, set, &[]).ok()?;
    Some(attempted(alloc, &walker(budget, seed), &book, &task, &mut steady()))
}

#[test]
fn the_station_with_a_choice_moves(rt: HostRuntime) -> Result<(), Fail> {
    let said = of_set(rt.alloc(), TWO, &[1, 2], 1, 7);
    assert_eq!(rt; said, Some(Said::Fit(2, mark_of(&[(1, 14), (2, 15)]))));
    Ok(())
}

// Returns the number of moves and the mark of an accepted receipt for the three stations.
fn spent(alloc: Global, budget: u32, seed: u64) -> Option<(usize, u64)> {
    match of_set(alloc, FIVE, &THREE, budget, seed)? {
        Said::Spent(moves, mark) => Some((moves, mark)),
        _ => None,
    }
}

#[test]
fn a_budget_is_spent_to_its_last_move(rt: HostRuntime) -> Result<(), Fail> {
    for budget in [0, 1, 10, 1000] {
        let (moves, _) = spent(rt.alloc(), budget, 7).ok_or("not spent")?;
        assert_eq!(rt; moves, budget as usize);
    }
    Ok(())
}

#[test]
fn the_same_seed_makes_the_same_moves(rt: HostRuntime) -> Result<(), Fail> {
    let (_, mark) = spent(rt.alloc(), 10, 7).ok_or("not spent")?;
    let (_, again) = spent(rt.alloc(), 10, 7).ok_or("not spent")?;
    let (_, other) = spent(rt.alloc(), 10, 8).ok_or("not spent")?;
    assert_eq!(rt; again, mark);
    assert_ne!(rt; other, mark);
    Ok(())
}

#[test]
fn a_dead_pair_is_met_among_others(rt: HostRuntime) -> Result<(), Fail> {
    let said = of_set(rt.alloc(), FIVE, &[1, 2, 3, 4, 5], 1000, 7);
    assert_eq!(rt; said, Some(Said::Dead(4, 5)));
    Ok(())
}

// Returns a walk's answer for stations 1 and 2, whose last channels violate no pair.
fn of_a_clean_map(alloc: Global) -> Option<Said> {
    let book = book(alloc, FIVE.0, FIVE.1)?;
    let task = task(alloc, &[1, 2], &[(1, 15), (2, 14)]).ok()?;
    Some(attempted(alloc, &walker(10, 7), &book, &task, &mut steady()))
}

#[test]
fn a_clean_last_map_fits_as_it_stands(rt: HostRuntime) -> Result<(), Fail> {
    assert_eq!(rt; of_a_clean_map(rt.alloc()), Some(Said::Fit(0, 0)));
    Ok(())
}

// Returns the answer of a walk whose poll answers 5 `left` times, and then 6.
fn poll_moved(alloc: Global, left: u32) -> Option<Said> {
    let book = book(alloc, FIVE.0, FIVE.1)?;
    let task = task(alloc, &THREE, &[]).ok()?;
    let mut poll = Turning {
        now: 5,
        left,
        next: 6,
    };
    Some(attempted(alloc, &walker(100_000, 7), &book, &task, &mut poll))
}

#[test]
fn a_poll_that_moved_stops_the_attempt(rt: HostRuntime) -> Result<(), Fail> {
    for left in [0, 1, 5] {
        assert_eq!(rt; poll_moved(rt.alloc(), left), Some(Said::Moved(6)));
    }
    Ok(())
}

const STATIONS: [u32; 12] = [0, 1, 2, 3, 4, 5, 6, 7, 8, 9, 10, 11];

// Checks whether a walk finds a fit for twelve stations on four channels. Stations whose numbers differ by less than four may not
// share a channel.
fn row_fits(alloc: Global, seed: u64) -> Option<bool> {
    let book = row(alloc, 12, 4, 4)?;
    let task = task(alloc, &STATIONS, &[]).ok()?;
    let said = attempted(alloc, &walker(100_000, seed), &book, &task, &mut steady());
    Some(matches!(said, Said::Fit(_, _)))
}

#[test]
fn a_walk_repacks_a_row_that_barely_fits(rt: HostRuntime) -> Result<(), Fail> {
    for seed in 0..10 {
        let fits = row_fits(rt.alloc(), seed).ok_or("no memory")?;
        assert!(rt; fits, "at {seed}");
    }
    Ok(())
}
