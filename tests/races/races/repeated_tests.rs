//! One auction is run many times; each run ends as on one thread.

use auction_core::auction::Auction;
use auction_core::record::{Record, Shown, Step};
use constraint_files::domains::read_domains;
use constraint_files::pairs::read_pairs;
use pack_defs::book::Book;
use pack_defs::channel_map::ChannelMap;
use pack_defs::order::Order;
use pack_defs::scenario::Scenario;
use pack_defs::station::Station;
use race_wave::run::{racers_of, run_auction};
use race_wave::serial::serial_turn;
use scenario_json::scenario::read_scenario;
use solver_gate::gate::EmptyGate;
use std::alloc::{AllocError as NoMemory, Global};
use std::test::Fail;

// Returns the value of one of forty stations in cents; a station without a value starts on air. Only the last two stations of each
// of the first three groups of four have values. The third of a group leaves in the first round, in the second, or never. Once three
// of a group are on air, the fourth no longer fits.
fn value_of(station: u32) -> &'static str {
    match station {
        2 => "70",
        6 => "50",
        10 => "10",
        3 | 7 | 11 => "10",
        _ => "null",
    }
}

// Returns a scenario of forty stations with four workers. The price falls twice from 100 cents.
fn forty_bids(alloc: Global) -> Option<Scenario> {
    let mut text = String::new(alloc);
    text.push_str(r#"{"version":1,"top":16,"opening":100,"decrements":[40,40],"stations":["#)
        .ok()?;
    for s in 0..40 {
        let comma = if s == 0 { "" } else { "," };
        let value = value_of(s);
        text.push_str(&format!(in alloc;
            "{comma}{{\"id\":{s},\"volume\":1,\"value\":{value}}}"
        ).ok()?)
            .ok()?;
    }
    text.push_str(
        r#"],"workers":[{"kind":"cdcl","budget":1000},{"kind":"walk","budget":10},{"kind":"cdcl","budget":1000,"seed":1},{"kind":"cdcl","budget":1000,"seed":2}]}"#,
    ).ok()?;
    read_scenario(alloc, text.as_bytes()).ok()
}

fn ids_of(alloc: Global, stations: &[Station]) -> Result<Vec<u32>, NoMemory> {
    stations.iter().map(|station| station.id).collect(alloc)
}

// Returns the book on channels 14 to 16. In each of the first three groups of four, no two stations may share a channel. All other stations
// do not interfere.
fn tens_of_four(alloc: Global, sc: &Scenario) -> Option<Book> {
    let mut domains = String::new(alloc);
    let mut rows = String::new(alloc);
    for s in 0..40 {
        domains
            .push_str(&format!(in alloc; "DOMAIN,{s},14,15,16\n").ok()?)
            .ok()?;
        for t in s + 1..40 {
            for c in 14..17u8 {
                if t / 4 == s / 4 && t < 12 {
                    rows.push_str(&format!(in alloc; "CO,{c},{c},{s},{t}\n").ok()?)
                        .ok()?;
                }
            }
        }
    }
    let domains = read_domains(alloc, domains.as_bytes()).ok()?;
    let pairs = read_pairs(alloc, rows.as_bytes(), &domains).ok()?;
    let ids = ids_of(alloc, sc.stations.as_slice()).ok()?;
    let Ok(book) = Book::build(alloc, sc.top, &ids, domains.list(), pairs.list()) else {
        return None;
    };
    Some(book)
}

// Runs the auction on this thread alone.
fn run_by_turns(alloc: Global, sc: &Scenario, book: &Book) -> Result<Record, NoMemory> {
    let mut racers = racers_of(alloc, sc.workers.as_slice(), book)?;
    let mut auction = Auction::start(alloc, sc, book, Order::ByVolume)?;
    while !auction.ended() {
        serial_turn(alloc, &mut auction, &mut racers)?;
    }
    auction.into_result(alloc, sc.copy(alloc)?)
}

fn is_alike(one: &Step, other: &Step) -> bool {
    let decided = matches!(one.shown, Shown::Undecided(_))
        == matches!(other.shown, Shown::Undecided(_));
    one.round == other.round
        && one.station == other.station
        && decided
        && one.shown.shows_room() == other.shown.shows_room()
}

fn are_alike(some: &[Step], others: &[Step]) -> bool {
    if some.len() != others.len() {
        return false;
    }
    for i in 0..some.len() {
        if !is_alike(&some[i], &others[i]) {
            return false;
        }
    }
    true
}

// Checks whether both maps have the same stations.
fn have_alike(one: &ChannelMap, other: &ChannelMap) -> bool {
    for (station, _) in one.entries() {
        if other.get(*station).is_none() {
            return false;
        }
    }
    one.len() == other.len()
}

// Checks whether both records have the same tests with the same outcomes, the same stations on air, and the same total.
fn are_same(one: &Record, other: &Record) -> bool {
    one.ending == other.ending
        && one.total == other.total
        && have_alike(&one.map, &other.map)
        && are_alike(one.steps.as_slice(), other.steps.as_slice())
}

#[test]
fn two_hundred_runs_end_as_one_thread_does(rt: HostRuntime) -> Result<(), Fail> {
    let alloc = rt.alloc();
    let sc = forty_bids(alloc).ok_or(NoMemory)?;
    let book = tens_of_four(alloc, &sc).ok_or(NoMemory)?;
    let wanted = run_by_turns(alloc, &sc, &book)?;
    for _ in 0..200 {
        let record = run_auction(&rt, alloc, &sc, &book, &EmptyGate)?;
        assert!(rt; are_same(&record, &wanted));
    }
    assert!(rt; wanted.total > 0);
    Ok(())
}
