//! Over random fits, the check that looks only at changed stations agrees with the check of the complete map.

use crate::auctions::answers::fresh_tests::{next, pick};
use crate::auctions::answers::samples::{four_stations, task};
use crate::auctions::answers::tests::place;
use crate::samples::answers::fit;
use crate::samples::books::apart;
use crate::samples::workers::learner;
use assign_check::check::violation;
use cert_types::answer::{Answer, Place};
use cert_types::certify::{certify, certify_query};
use cert_types::query::is_query;
use cert_types::task::Task;
use pack_defs::book::Book;
use pack_defs::channel_map::ChannelMap;
use pack_defs::domain::Domain;
use pack_defs::items::Items;
use pack_defs::pair::Pair;
use std::alloc::{AllocError as NoMemory, Global};
use std::test::Fail;

const STATIONS: &[u32] = &[1, 2, 3, 4, 5, 6, 7, 8, 9, 10, 11, 12];

// Returns two or all of the three channels.
fn channels(kind: u64) -> &'static [u8] {
    match kind {
        0 => return &[14, 15],
        1 => return &[14, 16],
        2 => return &[15, 16],
        _ => return &[14, 15, 16],
    }
}

fn domain(alloc: Global, station: u32, seed: u64) -> Result<Domain, NoMemory> {
    let channels = Items::from_vec(Vec::from_slice(alloc, channels(pick(seed, 4)))?);
    Ok(Domain { station, channels })
}

// Returns pseudorandom domains of these stations.
fn domains(alloc: Global, stations: &[u32], start: u64) -> Result<Vec<Domain>, NoMemory> {
    let mut domains = Vec::new(alloc);
    let mut seed = start;
    for station in stations {
        seed = next(seed);
        domains.push(domain(alloc, *station, seed)?)?;
    }
    Ok(domains)
}

// Returns pair number `k`. A station may not share a channel with the next one. It may not be one channel below the third station after it
// (14 counts as the channel above 16).
fn pair_at(k: u32) -> Pair {
    Pair {
        f: k / 6 + 1,
        a: (14 + k % 6 / 2) as u8,
        g: k / 6 + 2 + k % 2 * 2,
        b: (14 + (k % 6 / 2 + k % 2) % 3) as u8,
    }
}

fn pairs(alloc: Global) -> Result<Vec<Pair>, NoMemory> {
    let mut pairs = Vec::new(alloc);
    for k in 0..66 {
        pairs.push(pair_at(k))?;
    }
    Ok(pairs)
}

fn book(alloc: Global, start: u64) -> Result<Book, NoMemory> {
    let domains = domains(alloc, STATIONS, start)?;
    let pairs = pairs(alloc)?;
    Book::build(alloc, 16, STATIONS, &domains, &pairs)
}

// Returns the map with one station moved to this channel.
fn with(alloc: Global, map: &ChannelMap, station: u32, c: u8) -> Result<ChannelMap, NoMemory> {
    map.overlay(alloc, &ChannelMap::of(alloc, &[(station, c)])?)
}

fn is_clean(book: &Book, map: &ChannelMap) -> bool {
    map.keeps_order();
    violation(book, map).is_none()
}

// Puts the station on a channel of its domain that violates nothing. Returns the map unchanged if every channel violates a pair.
fn placed(
    alloc: Global,
    book: &Book,
    map: ChannelMap,
    station: u32,
    seed: u64,
) -> Result<ChannelMap, NoMemory> {
    let first = pick(seed, 3);
    for k in 0..3 {
        let c = (14 + (first + k) % 3) as u8;
        let more = with(alloc, &map, station, c)?;
        if book.domain(station).contains(&c) && is_clean(book, &more) {
            return Ok(more);
        }
    }
    Ok(map)
}

// Returns a map of all stations except the tested one; a station without a free channel is left out.
fn last_map(alloc: Global, book: &Book, tested: u32, start: u64) -> Result<ChannelMap, NoMemory> {
    let mut map = ChannelMap::of(alloc, &[])?;
    let mut seed = start;
    for s in STATIONS {
        if *s == tested {
            continue;
        }
        seed = next(seed);
        map = placed(alloc, book, map, *s, seed)?;
    }
    Ok(map)
}

// Returns changes of at most three random stations, and in seven of eight cases the tested one. Station 13 is not in the book, and channel
// 17 is in no domain.
fn changes(alloc: Global, tested: u32, start: u64) -> Result<ChannelMap, NoMemory> {
    let mut map = ChannelMap::of(alloc, &[])?;
    let mut seed = next(start);
    for _ in 0..pick(seed, 4) {
        let s = next(seed);
        seed = next(s);
        map = with(
            alloc,
            &map,
            1 + pick(s, 13) as u32,
            14 + pick(seed, 4) as u8,
        )?;
    }
    let often = next(seed);
    if pick(often, 8) == 0 {
        return Ok(map);
    }
    with(alloc, &map, tested, 14 + pick(next(often), 3) as u8)
}

// How the checks judge a fit.
#[derive(Clone, Copy, PartialEq, Eq)]
enum Met {
    Valid,
    Violating,
    OffDomain,
    OfAStranger,
    WithoutTheTested,
    // The two checks disagree.
    Unlike,
}

// Classifies a fit by the place of its first error. `named` says whether the fit has the tested station.
fn fault_of(place: Option<Place>, named: bool) -> Met {
    if !named {
        return Met::WithoutTheTested;
    }
    match place {
        None => Met::Valid,
        Some(Place::Station(13)) => Met::OfAStranger,
        Some(Place::Station(_)) => Met::OffDomain,
        Some(_) => Met::Violating,
    }
}

fn same_fit(alloc: Global, delta: &ChannelMap) -> Result<Answer, NoMemory> {
    let none = ChannelMap::of(alloc, &[])?;
    Ok(Answer::Fit(delta.overlay(alloc, &none)?))
}

// Returns the verdict that both checks share, or `Unlike`.
fn judged(
    alloc: Global,
    book: &Book,
    task: &Task,
    delta: &ChannelMap,
    named: bool,
) -> Result<Met, NoMemory> {
    let worker = learner(1);
    let whole = certify(alloc, book, task, &worker, same_fit(alloc, delta)?);
    let quick = certify_query(alloc, book, task, &worker, same_fit(alloc, delta)?);
    let at = place(whole)?;
    if place(quick)? != at {
        return Ok(Met::Unlike);
    }
    Ok(fault_of(at, named))
}

// Judges twenty random fits of a query.
fn judge(
    alloc: Global,
    book: &Book,
    task: &Task,
    tested: u32,
    all: &mut Vec<Met>,
) -> Result<(), NoMemory> {
    let mut seed = task.number;
    for _ in 0..20 {
        seed = next(seed);
        let delta = changes(alloc, tested, seed)?;
        let named = delta.get(tested).is_some();
        all.push(judged(alloc, book, task, &delta, named)?)?;
    }
    Ok(())
}

fn task_at_random(alloc: Global, book: &Book, tested: u32, number: u64) -> Result<Task, NoMemory> {
    Ok(Task {
        number,
        round: 1,
        station: Some(tested),
        set: Items::from_vec(Vec::from_slice(alloc, STATIONS)?),
        last: last_map(alloc, book, tested, next(number))?,
    })
}

// Judges the fits of a random task, if the task is a query.
fn try_at_random(alloc: Global, number: u64, all: &mut Vec<Met>) -> Result<(), NoMemory> {
    let book = book(alloc, number)?;
    let tested = 1 + pick(number, 12) as u32;
    let task = task_at_random(alloc, &book, tested, number)?;
    if is_query(&book, &task) {
        judge(alloc, &book, &task, tested, all)?;
    }
    Ok(())
}

#[test]
fn changes_decide(rt: HostRuntime) -> Result<(), Fail> {
    const KINDS: &[Met] = &[
        Met::Valid,
        Met::Violating,
        Met::OffDomain,
        Met::OfAStranger,
        Met::WithoutTheTested,
    ];
    let mut all = Vec::new(rt.alloc());
    let mut number = 1;
    for _ in 0..40 {
        number = next(number);
        try_at_random(rt.alloc(), number, &mut all)?;
    }
    assert!(rt; !all.contains(&Met::Unlike));
    for kind in KINDS {
        assert!(rt; all.contains(kind));
    }
    Ok(())
}

// Uses a last map with stations 1 and 2 on one channel. Returns whether that task is a query, and the first error of a fit of station 3.
fn broken_before(alloc: Global) -> Result<(bool, Option<Place>), NoMemory> {
    let book = four_stations(alloc)?;
    let task = task(alloc, &[1, 2, 3], &[(1, 14), (2, 14)])?;
    let asked = is_query(&book, &task);
    let answer = fit(alloc, &[(3, 15)])?;
    Ok((
        asked,
        place(certify(alloc, &book, &task, &learner(1), answer))?,
    ))
}

#[test]
fn invalid_last_map(rt: HostRuntime) -> Result<(), Fail> {
    let (asked, place) = broken_before(rt.alloc())?;
    assert!(rt; !asked);
    assert_eq!(rt; place, Some(Place::PairOf(apart(1, 2, 14))));
    Ok(())
}
