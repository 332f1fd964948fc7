//! Tests of `wins_at`: a station wins with each value up to its payment, and loses above it.

use crate::samples::books::{all_apart, on};
use pack_defs::book::Book;
use pack_defs::fall::Fall;
use pack_defs::items::Items;
use pack_defs::order::Order;
use pack_defs::scenario::Scenario;
use pack_defs::station::Station;
use std::alloc::{AllocError as NoMemory, Global};
use std::test::Fail;
use threshold_laws::wins::wins_at;

// Returns a book of three stations on channels 14 to 16, limited to the top channel. No two of them may share 14 or 15.
fn book_up_to(alloc: Global, top: u8) -> Result<Book, NoMemory> {
    let domains = [
        on(alloc, 1, &[14, 15, 16])?,
        on(alloc, 2, &[14, 15, 16])?,
        on(alloc, 3, &[14, 15, 16])?,
    ];
    let pairs = all_apart(alloc)?;
    Book::build(alloc, top, &[1, 2, 3], &domains, &pairs)
}

// Returns a station with this volume and value.
fn station(id: u32, bid: (u32, u64)) -> Station {
    let (volume, value) = bid;
    Station {
        id,
        volume,
        value: Some(value),
    }
}

// Returns one to three stations, numbered from 1, with these volumes and values.
fn stations(alloc: Global, bids: &[(u32, u64)]) -> Result<Vec<Station>, NoMemory> {
    match bids {
        [only] => Ok(vec![in alloc; station(1, *only)]?),
        [first, second] => Ok(vec![in alloc; station(1, *first), station(2, *second)]?),
        [first, second, third] => {
            Ok(vec![in alloc; station(1, *first), station(2, *second), station(3, *third)]?)
        }
        _ => Ok(Vec::new(alloc)),
    }
}

// How the price falls from 100 cents: by these decrements, or by rate and floor.
#[derive(Clone, Copy)]
enum Falls {
    By(&'static [u32]),
    Rate(u32, u32),
}

fn fall(alloc: Global, falls: Falls) -> Result<Fall, NoMemory> {
    match falls {
        Falls::By(decrements) => Ok(Fall::Listed(Items::from_vec(Vec::from_slice(
            alloc, decrements,
        )?))),
        Falls::Rate(rate, floor) => Ok(Fall::Rated { rate, floor }),
    }
}

// Returns an auction of these stations that opens at 100 cents.
fn scenario(alloc: Global, falls: Falls, bids: &[(u32, u64)]) -> Result<Scenario, NoMemory> {
    Ok(Scenario {
        version: 1,
        top: 16,
        opening: 100,
        fall: fall(alloc, falls)?,
        stations: Items::from_vec(stations(alloc, bids)?),
        workers: Items::from_vec(Vec::new(alloc)),
        owners: None,
    })
}

// An auction: the top channel, the price falls, the order within a round, and the volumes and values of the stations.
type Auction = (u8, Falls, Order, &'static [(u32, u64)]);

// Returns the first value for which `wins_at` does not answer `won`.
fn first_other(
    alloc: Global,
    auction: Auction,
    station: u32,
    values: &[u64],
    won: bool,
) -> Result<Option<u64>, NoMemory> {
    let (top, falls, order, bids) = auction;
    let book = book_up_to(alloc, top)?;
    let sc = scenario(alloc, falls, bids)?;
    for v in values {
        if wins_at(alloc, &sc, &book, station, *v, order)? != won {
            return Ok(Some(*v));
        }
    }
    Ok(None)
}

// A station of an auction, with values for which it is bought and values for which it is not. The values are around the offers of each
// round, and one cent below and above.
const ROWS: &[(Auction, u32, &[u64], &[u64])] = &[
    // A lone station without a channel.
    (
        (13, Falls::By(&[]), Order::ByFacility, &[(1, 5)]),
        1,
        &[99, 100],
        &[101],
    ),
    // One round, in which two of the three stations fit.
    (
        (
            15,
            Falls::By(&[]),
            Order::ByFacility,
            &[(1, 50), (1, 70), (1, 10)],
        ),
        3,
        &[99, 100],
        &[101],
    ),
    (
        (
            15,
            Falls::By(&[40, 40]),
            Order::ByFacility,
            &[(1, 50), (1, 70), (1, 10)],
        ),
        3,
        &[19, 20, 21, 59, 60],
        &[61, 99, 100, 101],
    ),
    (
        (16, Falls::By(&[40]), Order::ByFacility, &[(1, 50), (1, 70)]),
        1,
        &[],
        &[59, 60, 61, 99, 100, 101],
    ),
    (
        (
            13,
            Falls::By(&[40, 40]),
            Order::ByFacility,
            &[(1, 50), (1, 70)],
        ),
        2,
        &[19, 20, 21, 59, 60, 61, 99, 100],
        &[101],
    ),
    (
        (14, Falls::By(&[30]), Order::ByFacility, &[(2, 100), (3, 5)]),
        2,
        &[209, 210],
        &[211, 299, 300, 301],
    ),
    (
        (
            15,
            Falls::By(&[40, 40]),
            Order::ByVolume,
            &[(1, 50), (1, 70), (2, 10)],
        ),
        3,
        &[39, 40],
        &[41, 119, 120, 121, 199, 200, 201],
    ),
    (
        (
            15,
            Falls::By(&[40, 40]),
            Order::ByFacility,
            &[(1, 50), (1, 70), (2, 10)],
        ),
        3,
        &[39, 40, 41, 119, 120],
        &[121, 199, 200, 201],
    ),
    (
        (
            15,
            Falls::By(&[]),
            Order::ByVolume,
            &[(1, 50), (1, 70), (2, 10)],
        ),
        2,
        &[99, 100],
        &[101],
    ),
    (
        (
            14,
            Falls::Rate(500, 500),
            Order::ByFacility,
            &[(1, 50), (1, 100)],
        ),
        1,
        &[0, 1, 49, 50],
        &[51, 99, 100, 101],
    ),
    (
        (
            15,
            Falls::Rate(400, 600),
            Order::ByVolume,
            &[(1, 30), (3, 250), (2, 10)],
        ),
        3,
        &[0],
        &[1, 79, 80, 81, 199, 200, 201],
    ),
    (
        (
            14,
            Falls::By(&[20, 30]),
            Order::ByVolume,
            &[(2, 90), (2, 110), (3, 100)],
        ),
        2,
        &[99, 100],
        &[101, 159, 160, 161, 199, 200, 201],
    ),
];

#[test]
fn wins_up_to_what_it_is_paid(rt: HostRuntime) -> Result<(), Fail> {
    let alloc = rt.alloc();
    for (auction, s, wins, loses) in ROWS {
        assert_eq!(rt; first_other(alloc, *auction, *s, wins, true)?, None);
        assert_eq!(rt; first_other(alloc, *auction, *s, loses, false)?, None);
    }
    Ok(())
}
