//! Tests of the cache on three stations with channels 14 and 15. No two of the stations may share a channel. Stations 2 and `THIRD` set the
//! same bit in the signature of a set. So the cache must read a set with one of them to see that the set lacks the other.

use batch_cache::cache::Cache;
use cert_types::answer::{Answer, Receipt, Refutation};
use cert_types::query::is_query;
use cert_types::task::Task;
use clause_db::lit::Lit;
use pack_defs::book::Book;
use pack_defs::channel_map::ChannelMap;
use pack_defs::domain::Domain;
use pack_defs::items::Items;
use pack_defs::pair::Pair;
use pack_defs::worker::{Kind, Worker};
use rup_check::line::Log;
use rup_check::lines::Lines;
use std::alloc::{AllocError as NoMemory, Global};
use std::test::Fail;

const THIRD: u32 = 1026;

// A station on a channel.
type Entry = (u32, u8);

// A call of the cache. The top channel is 15 unless the step names another.
#[derive(Clone, Copy)]
enum Step {
    // Keeps the fit of a set with these channels. All entries except the last one are the last map.
    Fit(&'static [u32], &'static [Entry]),
    // Keeps a refutation of all three stations, with two lines.
    Proof,
    // Keeps a refutation of a set by the dead pair of stations 1 and 2 on channel 14.
    Dead(&'static [u32]),
    // Keeps a spent budget with no lines for a set.
    Spent(&'static [u32]),
    // Asks about a set: for a learner with a budget of two lines, a learner with one, a walker, and under top channel 16.
    Ask(&'static [u32], Want),
    AskOfOneLine(&'static [u32], Want),
    AskOfWalk(&'static [u32], Want),
    AskOfTop16(&'static [u32], Want),
    // Asks for a suggestion, which the cache does not check. The cases are the same; the first one has a last map.
    Suggest(&'static [u32], &'static [Entry], Want),
    SuggestOneLine(&'static [u32], Want),
    SuggestToWalk(&'static [u32], Want),
    SuggestOfTop16(&'static [u32], Want),
}

// The expected answer.
#[derive(Clone, Copy)]
enum Want {
    Nothing,
    Fit(&'static [Entry]),
    Proof,
    Dead,
}

// Returns a station with these channels.
fn station_on(alloc: Global, station: u32, channels: &[u8]) -> Result<Domain, NoMemory> {
    let channels = Items::from_vec(Vec::from_slice(alloc, channels)?);
    Ok(Domain { station, channels })
}

fn on_one(f: u32, g: u32, c: u8) -> Pair {
    Pair { f, a: c, g, b: c }
}

// Returns the book of the three stations, each with these channels.
fn three_stations(alloc: Global, channels: &[u8]) -> Result<Book, NoMemory> {
    let domains = [
        station_on(alloc, 1, channels)?,
        station_on(alloc, 2, channels)?,
        station_on(alloc, THIRD, channels)?,
    ];
    let pairs = [
        on_one(1, 2, 14),
        on_one(1, THIRD, 14),
        on_one(1, 2, 15),
        on_one(1, THIRD, 15),
        on_one(2, THIRD, 14),
        on_one(2, THIRD, 15),
    ];
    Book::build(alloc, 15, &[1, 2, THIRD], &domains, &pairs)
}

// Returns the map of these entries.
fn map_of(alloc: Global, entries: &[Entry]) -> Result<ChannelMap, NoMemory> {
    let mut map = ChannelMap::of(alloc, &[])?;
    for entry in entries {
        map = map.overlay(alloc, &ChannelMap::of(alloc, &[*entry])?)?;
    }
    Ok(map)
}

// Returns the test of a set, with this last map.
fn task_of(alloc: Global, set: &[u32], last: &[Entry]) -> Result<Task, NoMemory> {
    Ok(Task {
        number: 1,
        round: 0,
        station: None,
        set: Items::from_vec(Vec::from_slice(alloc, set)?),
        last: map_of(alloc, last)?,
    })
}

// Returns the lines 13 -1 0 7 2 8 3 12 0 and 14 0 13 1 9 2 10 3 11 0.
fn two_lines(alloc: Global) -> Result<Log, NoMemory> {
    let mut lines = Lines::new(alloc);
    let not_one = Lit {
        var: 1,
        positive: false,
    };
    lines.push(&[not_one], &[7, 2, 8, 3, 12])?;
    lines.push(&[], &[13, 1, 9, 2, 10, 3, 11])?;
    Ok(Log { lines })
}

// Puts an answer to the test of a set, with this last map.
fn keep(
    alloc: Global,
    cache: &mut Cache,
    set: &[u32],
    last: &[Entry],
    answer: Answer,
) -> Result<(), NoMemory> {
    let task = task_of(alloc, set, last)?;
    cache.put(alloc, 15, &task, &answer)
}

fn keep_fit(
    alloc: Global,
    cache: &mut Cache,
    set: &[u32],
    entries: &[Entry],
) -> Result<(), NoMemory> {
    let Some((last, before)) = entries.split_last() else {
        return Ok(());
    };
    let delta = map_of(alloc, &[*last])?;
    keep(alloc, cache, set, before, Answer::Fit(delta))
}

fn keep_proof(alloc: Global, cache: &mut Cache) -> Result<(), NoMemory> {
    let proof = Refutation::Proof {
        subset: Items::from_vec(Vec::from_slice(alloc, &[1, 2, THIRD])?),
        log: two_lines(alloc)?,
    };
    keep(alloc, cache, &[1, 2, THIRD], &[], Answer::Refuted(proof))
}

fn keep_spent(alloc: Global, cache: &mut Cache, set: &[u32]) -> Result<(), NoMemory> {
    let lines = Lines::new(alloc);
    let receipt = Receipt::Lines(Log { lines });
    keep(alloc, cache, set, &[], Answer::Spent(receipt))
}

fn worker(kind: Kind, budget: u32) -> Worker {
    Worker {
        kind,
        budget,
        seed: 0,
    }
}

// Checks whether the cache gives the expected answer.
fn answers(
    alloc: Global,
    cache: &mut Cache,
    top: u8,
    book: &Book,
    worker: Worker,
    set: &[u32],
    want: Want,
) -> Result<bool, NoMemory> {
    let task = task_of(alloc, set, &[])?;
    if !is_query(book, &task) {
        return Ok(false);
    }
    let answer = cache.answer(alloc, top, book, &task, &worker)?;
    Ok(is_wanted(&answer, want))
}

// Checks whether the cache makes the expected suggestion for the test of a set, with this last map.
fn suggests(
    alloc: Global,
    cache: &mut Cache,
    top: u8,
    worker: Worker,
    set: &[u32],
    last: &[Entry],
    want: Want,
) -> Result<bool, NoMemory> {
    let task = task_of(alloc, set, last)?;
    let suggestion = cache.suggest(alloc, top, &task, &worker)?;
    Ok(is_wanted(&suggestion, want))
}

fn is_wanted(answer: &Option<Answer>, want: Want) -> bool {
    match answer {
        None => matches!(&want, Want::Nothing),
        Some(Answer::Fit(map)) => is_fit(map, want),
        Some(Answer::Refuted(refutation)) => is_refutation(refutation, want),
        Some(Answer::Spent(_)) => false,
    }
}

fn is_fit(map: &ChannelMap, want: Want) -> bool {
    match want {
        Want::Fit(entries) => map.entries() == entries,
        _ => false,
    }
}

fn is_refutation(refutation: &Refutation, want: Want) -> bool {
    match refutation {
        Refutation::Proof { subset: _, log } => {
            log.lines.len() == 2 && matches!(&want, Want::Proof)
        }
        Refutation::Dead(_) => matches!(&want, Want::Dead),
    }
}

// Runs a step. Returns whether its answer is the expected one.
fn step_matches(alloc: Global, cache: &mut Cache, book: &Book, step: Step) -> Result<bool, NoMemory> {
    let learner = worker(Kind::Cdcl, 2);
    match step {
        Step::Fit(set, entries) => keep_fit(alloc, cache, set, entries)?,
        Step::Proof => keep_proof(alloc, cache)?,
        Step::Dead(set) => {
            let dead = Refutation::Dead(on_one(1, 2, 14));
            keep(alloc, cache, set, &[], Answer::Refuted(dead))?;
        }
        Step::Spent(set) => keep_spent(alloc, cache, set)?,
        Step::Ask(set, want) => return answers(alloc, cache, 15, book, learner, set, want),
        Step::AskOfOneLine(set, want) => {
            return answers(alloc, cache, 15, book, worker(Kind::Cdcl, 1), set, want);
        }
        Step::AskOfWalk(set, want) => {
            return answers(alloc, cache, 15, book, worker(Kind::Walk, 2), set, want);
        }
        Step::AskOfTop16(set, want) => {
            return answers(alloc, cache, 16, book, learner, set, want);
        }
        Step::Suggest(set, last, want) => {
            return suggests(alloc, cache, 15, learner, set, last, want);
        }
        Step::SuggestOneLine(set, want) => {
            return suggests(alloc, cache, 15, worker(Kind::Cdcl, 1), set, &[], want);
        }
        Step::SuggestToWalk(set, want) => {
            return suggests(alloc, cache, 15, worker(Kind::Walk, 2), set, &[], want);
        }
        Step::SuggestOfTop16(set, want) => {
            return suggests(alloc, cache, 16, learner, set, &[], want);
        }
    }
    Ok(true)
}

// Returns the index of the first step with another answer, in a cache with this room.
fn first_wrong(
    alloc: Global,
    channels: &[u8],
    room: u32,
    steps: &[Step],
) -> Result<Option<usize>, NoMemory> {
    let book = three_stations(alloc, channels)?;
    let mut cache = Cache::make(alloc, room)?;
    for (i, step) in steps.iter().enumerate() {
        if !step_matches(alloc, &mut cache, &book, *step)? {
            return Ok(Some(i));
        }
    }
    Ok(None)
}

const ALL: &[u32] = &[1, 2, THIRD];

const NOTHING: Want = Want::Nothing;

#[test]
fn answers_by_what_is_kept(rt: HostRuntime) -> Result<(), Fail> {
    const STEPS: &[Step] = &[
        Step::Ask(&[1, 2], NOTHING),
        Step::Suggest(&[1, 2], &[], NOTHING),
        Step::Fit(&[1, 2], &[(1, 15), (2, 14)]),
        Step::Ask(&[1, 2], Want::Fit(&[(1, 15), (2, 14)])),
        Step::Ask(&[2], Want::Fit(&[(2, 14)])),
        Step::AskOfWalk(&[1], Want::Fit(&[(1, 15)])),
        Step::AskOfTop16(&[1, 2], NOTHING),
        // A suggestion has only the channels that differ from the last map, for stations of the set.
        Step::Suggest(&[1, 2], &[], Want::Fit(&[(1, 15), (2, 14)])),
        Step::Suggest(&[1, 2], &[(1, 15)], Want::Fit(&[(2, 14)])),
        Step::Suggest(&[1, 2], &[(1, 14)], Want::Fit(&[(1, 15), (2, 14)])),
        Step::Suggest(&[2], &[], Want::Fit(&[(2, 14)])),
        Step::Suggest(&[1], &[(1, 15)], Want::Fit(&[])),
        Step::SuggestToWalk(&[1], Want::Fit(&[(1, 15)])),
        Step::SuggestOfTop16(&[1, 2], NOTHING),
        Step::Ask(ALL, NOTHING),
        Step::Ask(&[1, THIRD], NOTHING),
        Step::Suggest(&[1, THIRD], &[], NOTHING),
        Step::Spent(&[1, THIRD]),
        Step::Ask(&[1, THIRD], NOTHING),
        Step::Proof,
        Step::Ask(ALL, Want::Proof),
        Step::AskOfOneLine(ALL, NOTHING),
        Step::AskOfWalk(ALL, NOTHING),
        Step::AskOfTop16(ALL, NOTHING),
        Step::Suggest(ALL, &[(1, 15)], Want::Proof),
        Step::SuggestOneLine(ALL, NOTHING),
        Step::SuggestToWalk(ALL, NOTHING),
        Step::SuggestOfTop16(ALL, NOTHING),
        Step::Ask(&[1, 2], Want::Fit(&[(1, 15), (2, 14)])),
        // Another map under the same key, which is valid for each station alone but not for both.
        Step::Fit(&[1, 2], &[(1, 15), (2, 15)]),
        Step::Ask(&[1, 2], NOTHING),
        Step::Ask(&[2], Want::Fit(&[(2, 15)])),
        // A suggestion need not be valid.
        Step::Suggest(&[1, 2], &[], Want::Fit(&[(1, 15), (2, 15)])),
        // The pair is not dead, because each of its stations has two channels. The pair has replaced the proof.
        Step::Dead(ALL),
        Step::Ask(ALL, NOTHING),
        Step::Suggest(ALL, &[], Want::Dead),
    ];
    assert_eq!(rt; first_wrong(rt.alloc(), &[14, 15], 2, STEPS)?, None);
    Ok(())
}

#[test]
fn answers_by_a_dead_pair(rt: HostRuntime) -> Result<(), Fail> {
    const STEPS: &[Step] = &[
        Step::Dead(&[1, 2]),
        Step::Ask(&[1, 2], Want::Dead),
        Step::AskOfWalk(ALL, Want::Dead),
        Step::Ask(&[1, THIRD], NOTHING),
        Step::AskOfTop16(&[1, 2], NOTHING),
        Step::SuggestToWalk(ALL, Want::Dead),
        Step::Suggest(&[1, THIRD], &[], NOTHING),
    ];
    assert_eq!(rt; first_wrong(rt.alloc(), &[14], 1, STEPS)?, None);
    Ok(())
}

#[test]
fn the_least_recently_used_goes(rt: HostRuntime) -> Result<(), Fail> {
    const ONE: &[Step] = &[
        Step::Fit(&[1, 2], &[(1, 15), (2, 14)]),
        // Maps and refutations have separate room.
        Step::Proof,
        Step::Ask(&[1, 2], Want::Fit(&[(1, 15), (2, 14)])),
        Step::Fit(&[1, THIRD], &[(1, 15), (THIRD, 14)]),
        Step::Ask(&[1, 2], NOTHING),
        Step::Ask(&[THIRD], Want::Fit(&[(THIRD, 14)])),
        Step::Ask(ALL, Want::Proof),
    ];
    assert_eq!(rt; first_wrong(rt.alloc(), &[14, 15], 1, ONE)?, None);
    const TWO: &[Step] = &[
        Step::Fit(&[1, 2], &[(1, 15), (2, 14)]),
        Step::Fit(&[1, THIRD], &[(1, 14), (THIRD, 15)]),
        // Of two maps that answer, the last used one does.
        Step::Ask(&[1], Want::Fit(&[(1, 14)])),
        Step::Ask(&[2], Want::Fit(&[(2, 14)])),
        Step::Ask(&[1], Want::Fit(&[(1, 15)])),
        // The same holds for suggestions.
        Step::Suggest(&[THIRD], &[], Want::Fit(&[(THIRD, 15)])),
        Step::Suggest(&[1], &[], Want::Fit(&[(1, 14)])),
        Step::Suggest(&[2], &[], Want::Fit(&[(2, 14)])),
        Step::Suggest(&[1], &[], Want::Fit(&[(1, 15)])),
        // The map that answered last stays, and the other one is dropped.
        Step::Fit(&[2, THIRD], &[(2, 15), (THIRD, 14)]),
        Step::Ask(&[1, THIRD], NOTHING),
        Step::Ask(&[1, 2], Want::Fit(&[(1, 15), (2, 14)])),
        Step::Ask(&[2, THIRD], Want::Fit(&[(2, 15), (THIRD, 14)])),
        // A map that is put again under its key counts as the last used one.
        Step::Fit(&[1, 2], &[(1, 14), (2, 15)]),
        Step::Fit(&[THIRD], &[(THIRD, 15)]),
        Step::Ask(&[2, THIRD], NOTHING),
        Step::Ask(&[1, 2], Want::Fit(&[(1, 14), (2, 15)])),
        // The last used map lacks the station of the question; the other map has it.
        Step::Fit(&[1, THIRD], &[(1, 15), (THIRD, 14)]),
        Step::Ask(&[1, 2], Want::Fit(&[(1, 14), (2, 15)])),
        Step::Ask(&[2], Want::Fit(&[(2, 15)])),
        Step::Ask(&[1, THIRD], Want::Fit(&[(1, 15), (THIRD, 14)])),
        Step::Ask(ALL, NOTHING),
    ];
    assert_eq!(rt; first_wrong(rt.alloc(), &[14, 15], 2, TWO)?, None);
    Ok(())
}
