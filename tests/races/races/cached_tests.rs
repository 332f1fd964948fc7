//! Tests of a racer with quick fits and a cache. An answered set is not tried again, an invalid kept map is skipped, and a quick fit is
//! neither tried nor kept.

use crate::samples::books::three_stations;
use crate::samples::workers::{learner, walker};
use batch_cache::cache::Cache;
use cert_types::answer::Answer;
use cert_types::poll::Attempt;
use cert_types::query::is_query;
use cert_types::task::Task;
use pack_defs::book::Book;
use pack_defs::channel_map::ChannelMap;
use pack_defs::items::Items;
use pack_defs::worker::Worker;
use race_wave::cached::{Cached, Shared};
use race_wave::serial_poll::SerialPoll;
use solver_gate::racer::{Racer, RacerKind};
use std::alloc::{AllocError as NoMemory, Global};
use std::sync::Wait;
use std::test::Fail;

// A station on a channel.
type Entry = (u32, u8);

// The expected answer: a fit, one that changes this many channels of the last map, one with this station on this channel, or a
// refutation.
#[derive(Clone, Copy)]
enum Want {
    Fit,
    Changes(usize),
    Places(u32, u8),
    Unfit,
}

// Returns how many searches the solver has begun. A quick fit and an answer of the cache begin none.
fn searches_of(solver: &RacerKind) -> u64 {
    match solver {
        RacerKind::Cdcl(solver) => {
            let counts = solver.search_counts();
            counts
                .fits
                .saturating_add(counts.refuted)
                .saturating_add(counts.spent)
                .saturating_add(counts.left)
        }
        RacerKind::Walk(_) => 0,
    }
}

// Returns the test of the set's last station, with this last map. With an empty last map the complete set is tested.
fn task_of(alloc: Global, set: &[u32], last: &[Entry]) -> Result<Task, NoMemory> {
    let tested = if last.is_empty() { None } else { set.last() };
    Ok(Task {
        number: 1,
        round: 0,
        station: tested.copied(),
        set: Items::from_vec(Vec::from_slice(alloc, set)?),
        last: map_of(alloc, last)?,
    })
}

// Returns the map of these entries.
fn map_of(alloc: Global, entries: &[Entry]) -> Result<ChannelMap, NoMemory> {
    let mut map = ChannelMap::of(alloc, &[])?;
    for entry in entries {
        map = map.overlay(alloc, &ChannelMap::of(alloc, &[*entry])?)?;
    }
    Ok(map)
}

// Returns a cache that keeps these maps, each for its set; the last one was put last.
fn cache_of(alloc: Global, kept: &[(&[u32], &[Entry])]) -> Result<Cache, NoMemory> {
    let mut cache = Cache::make(alloc, 4)?;
    for (set, entries) in kept {
        let task = task_of(alloc, set, &[])?;
        let map = map_of(alloc, entries)?;
        cache.put(alloc, 15, &task, &Answer::Fit(map))?;
    }
    Ok(cache)
}

// Checks whether the racer gives the expected answer for this set and last map.
fn says<R: Racer>(
    alloc: Global,
    racer: &mut R,
    book: &Book,
    set: &[u32],
    last: &[Entry],
    want: Want,
) -> Result<bool, NoMemory> {
    let task = task_of(alloc, set, last)?;
    if !is_query(book, &task) {
        return Ok(false);
    }
    let said = racer.attempt(alloc, book, &task, &mut SerialPoll { number: 1 })?;
    Ok(is_wanted(&said, want))
}

fn is_wanted(said: &Attempt, want: Want) -> bool {
    match said {
        Attempt::Said(Answer::Fit(map)) => is_fit(map, want),
        Attempt::Said(Answer::Refuted(_)) => matches!(&want, Want::Unfit),
        _ => false,
    }
}

// Checks whether this fit is expected.
fn is_fit(map: &ChannelMap, want: Want) -> bool {
    match want {
        Want::Fit => true,
        Want::Changes(count) => map.entries().len() == count,
        Want::Places(station, channel) => map.get(station) == Some(channel),
        Want::Unfit => false,
    }
}

// Checks the answers of a solver with ample budget and a cache of these maps. Each row has a set, a last map, the expected answer, and the
// number of searches up to then.
fn are_answered<W: Wait>(
    rt: &W,
    alloc: Global,
    worker: &Worker,
    kept: &[(&[u32], &[Entry])],
    rows: &[(&[u32], &[Entry], Want, u64)],
) -> Result<bool, NoMemory> {
    let book = three_stations(alloc)?;
    let shared = Shared::new(cache_of(alloc, kept)?);
    let mut racer = Cached::make(rt, alloc, &book, &shared, worker)?;
    for (set, last, want, count) in rows {
        let said = says(alloc, &mut racer, &book, set, last, *want)?;
        if !said || searches_of(&racer.solver) != *count {
            return Ok(false);
        }
    }
    Ok(true)
}

// The cache answers an equal task, and one with fewer stations if the set fits; a larger set is tried. A kept map that is no fit is skipped
// for an older map or a valid refutation. Without either, the solver tries.
#[test]
fn cached_answers_are_not_tried(rt: HostRuntime) -> Result<(), Fail> {
    let rows: &[(&[u32], &[Entry], Want, u64)] = &[
        (&[1, 2], &[], Want::Fit, 1),
        (&[1, 2], &[], Want::Fit, 1),
        (&[2], &[], Want::Fit, 1),
        (&[1, 2, 3], &[], Want::Unfit, 2),
        (&[1, 2, 3], &[], Want::Unfit, 2),
        (&[1, 3], &[], Want::Fit, 3),
    ];
    assert!(rt; are_answered(&rt, rt.alloc(), &learner(1000), &[], rows)?);
    let kept: &[(&[u32], &[Entry])] = &[
        (&[1, 2], &[(1, 14), (2, 15)]),
        (&[1, 2, 3], &[(1, 14), (2, 14), (3, 14)]),
    ];
    let passing_over: &[(&[u32], &[Entry], Want, u64)] = &[
        (&[1, 2], &[], Want::Changes(2), 0),
        (&[3], &[], Want::Changes(1), 0),
        (&[1, 3], &[], Want::Fit, 1),
        (&[1, 2, 3], &[], Want::Unfit, 2),
        (&[1, 2, 3], &[], Want::Unfit, 2),
    ];
    assert!(rt; are_answered(&rt, rt.alloc(), &learner(1000), kept, passing_over)?);
    Ok(())
}

// A quick fit is neither tried nor kept. The answer is a free channel of the tested station, not the cached map that would move the other
// station too. The same set without quick fits is not in the cache: the solver tries it, and only then it is kept.
#[test]
fn quick_fits_are_neither_tried_nor_cached(rt: HostRuntime) -> Result<(), Fail> {
    let kept: &[(&[u32], &[Entry])] = &[(&[1, 2], &[(1, 15), (2, 14)])];
    let rows: &[(&[u32], &[Entry], Want, u64)] = &[
        (&[1, 2], &[(1, 14)], Want::Changes(1), 0),
        (&[1, 2], &[], Want::Changes(2), 0),
        (&[1, 3], &[(1, 14)], Want::Changes(1), 0),
        (&[1, 3], &[], Want::Fit, 1),
        (&[1, 3], &[], Want::Fit, 1),
    ];
    assert!(rt; are_answered(&rt, rt.alloc(), &learner(1000), kept, rows)?);
    Ok(())
}

// A walker asks the cache too: it gives the map that is kept, whichever of the two that is. What it finds by itself is kept.
#[test]
fn a_walker_asks_the_cache(rt: HostRuntime) -> Result<(), Fail> {
    let alloc = rt.alloc();
    let book = three_stations(alloc)?;
    for channel in [14u8, 15] {
        let other = 29 - channel;
        let kept: &[(&[u32], &[Entry])] = &[(&[1, 2], &[(1, channel), (2, other)])];
        let shared = Shared::new(cache_of(alloc, kept)?);
        let mut walking = Cached::make(&rt, alloc, &book, &shared, &walker(1000))?;
        assert!(rt; says(alloc, &mut walking, &book, &[1, 2], &[], Want::Places(1, channel))?);
        assert!(rt; says(alloc, &mut walking, &book, &[1, 3], &[], Want::Fit)?);
        let mut learning = Cached::make(&rt, alloc, &book, &shared, &learner(1000))?;
        assert!(rt; says(alloc, &mut learning, &book, &[1, 3], &[], Want::Fit)?);
        assert_eq!(rt; searches_of(&learning.solver), 0);
    }
    Ok(())
}
