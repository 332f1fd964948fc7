//! Auctions of one round: tests settled without a query, and the order of the queries.

use crate::auctions::auctions::samples::one_round;
use crate::auctions::auctions::tests::{Answered, Case, End, Want, played};
use crate::samples::answers::Given;
use crate::samples::books::{apart, book, lone_station, on};
use crate::samples::scenarios::bid;
use auction_core::record::Ending;
use pack_defs::book::Book;
use pack_defs::order::Order;
use pack_defs::pair::Pair;
use pack_defs::scenario::Scenario;
use pack_defs::station::Station;
use std::alloc::{AllocError as NoMemory, Global};
use std::test::Fail;

// An auction of one round.
#[derive(Clone, Copy)]
enum Scene {
    // Two stations start on air on channel 14, their only channel.
    DeadPair,
    // One station with this value and without a channel.
    NoChannel(u8),
    NoStation,
    // Five stations; only the third has a channel.
    ThirdOfFive,
}

fn dead_pair(alloc: Global, cases: &[Case]) -> Result<Option<Answered>, NoMemory> {
    let domains = [on(alloc, 1, &[14])?, on(alloc, 2, &[14])?];
    let two = book(alloc, &[1, 2], &domains, &[apart(1, 2, 14)])?;
    let sc = one_round(alloc, vec![in alloc; bid(1, 1, None), bid(2, 1, None)]?)?;
    played(alloc, sc, &two, Order::ByFacility, cases)
}

fn no_channel(alloc: Global, value: u8, cases: &[Case]) -> Result<Option<Answered>, NoMemory> {
    let sc = one_round(alloc, vec![in alloc; bid(1, 1, Some(u64::from(value)))]?)?;
    played(alloc, sc, &lone_station(alloc)?, Order::ByFacility, cases)
}

fn no_station(alloc: Global, cases: &[Case]) -> Result<Option<Answered>, NoMemory> {
    let sc = one_round(alloc, Vec::new(alloc))?;
    let none = book(alloc, &[], &[], &[])?;
    played(alloc, sc, &none, Order::ByFacility, cases)
}

// Returns a scenario with the same bid of stations 1 to 5.
fn five_bids(alloc: Global) -> Result<Scenario, NoMemory> {
    let v = Some(5);
    let bids = vec![in alloc;
        bid(1, 1, v),
        bid(2, 1, v),
        bid(3, 1, v),
        bid(4, 1, v),
        bid(5, 1, v),
    ]?;
    one_round(alloc, bids)
}

fn third_of_five(alloc: Global, cases: &[Case]) -> Result<Option<Answered>, NoMemory> {
    let sc = five_bids(alloc)?;
    let one = book(alloc, &[1, 2, 3, 4, 5], &[on(alloc, 3, &[14])?], &[])?;
    played(alloc, sc, &one, Order::ByFacility, cases)
}

fn in_one_round(alloc: Global, scene: Scene, cases: &[Case]) -> Result<Option<Answered>, NoMemory> {
    match scene {
        Scene::DeadPair => dead_pair(alloc, cases),
        Scene::NoChannel(value) => no_channel(alloc, value, cases),
        Scene::NoStation => no_station(alloc, cases),
        Scene::ThirdOfFive => third_of_five(alloc, cases),
    }
}

const DEAD: Pair = Pair {
    f: 1,
    a: 14,
    g: 2,
    b: 14,
};

const ONE_ROUND: &[(Scene, &[Case], End)] = &[
    (
        Scene::DeadPair,
        &[(0, 1, Given::Dead(DEAD), Want::Last)],
        (Ending::StartRefuted, 2, 0, 0),
    ),
    // Without a channel, a station on air at the start refutes the start, and a station in the clock is frozen.
    (Scene::NoChannel(101), &[], (Ending::StartRefuted, 1, 0, 0)),
    (Scene::NoChannel(5), &[], (Ending::Done, 1, 1, 100)),
    (Scene::NoStation, &[], (Ending::Done, 1, 0, 0)),
    // The tests before and after the query are settled without a query.
    (
        Scene::ThirdOfFive,
        &[(0, 1, Given::Fit(3, 14), Want::Last)],
        (Ending::Done, 2, 5, 400),
    ),
];

#[test]
fn tests_without_a_query(rt: HostRuntime) -> Result<(), Fail> {
    for (scene, cases, want) in ONE_ROUND {
        let came = in_one_round(rt.alloc(), *scene, cases)?;
        assert_eq!(rt; came, Some((*want, 0, false, None)));
    }
    Ok(())
}

// Returns a station with a volume of `volume` plus one and a low value.
fn of_volume(id: u32, volume: u8) -> Station {
    bid(id, u32::from(volume) + 1, Some(5))
}

// Returns a scenario of stations 1 to 3 with these volumes, each plus one.
fn of_volumes(alloc: Global, volumes: (u8, u8, u8)) -> Result<Scenario, NoMemory> {
    let first = of_volume(1, volumes.0);
    let second = of_volume(2, volumes.1);
    let third = of_volume(3, volumes.2);
    one_round(alloc, vec![in alloc; first, second, third]?)
}

// Returns a book of three stations on one channel that do not interfere.
fn three_apart(alloc: Global) -> Result<Book, NoMemory> {
    let domains = [
        on(alloc, 1, &[14])?,
        on(alloc, 2, &[14])?,
        on(alloc, 3, &[14])?,
    ];
    book(alloc, &[1, 2, 3], &domains, &[])
}

fn by_volumes(
    alloc: Global,
    volumes: (u8, u8, u8),
    cases: &[Case],
) -> Result<Option<Answered>, NoMemory> {
    let sc = of_volumes(alloc, volumes)?;
    played(alloc, sc, &three_apart(alloc)?, Order::ByVolume, cases)
}

// Volumes, and the answers to the tests of one round. Greater volumes come first, then smaller facility numbers. In another order an answer
// would fit the wrong station and be rejected.
const IN_TURN: &[((u8, u8, u8), &[Case])] = &[
    (
        (4, 4, 4),
        &[
            (0, 1, Given::Fit(1, 14), Want::Next(2)),
            (0, 2, Given::Fit(2, 14), Want::Next(3)),
            (0, 3, Given::Fit(3, 14), Want::Last),
        ],
    ),
    (
        (1, 2, 3),
        &[
            (0, 1, Given::Fit(3, 14), Want::Next(2)),
            (0, 2, Given::Fit(2, 14), Want::Next(3)),
            (0, 3, Given::Fit(1, 14), Want::Last),
        ],
    ),
    (
        (3, 2, 1),
        &[
            (0, 1, Given::Fit(1, 14), Want::Next(2)),
            (0, 2, Given::Fit(2, 14), Want::Next(3)),
            (0, 3, Given::Fit(3, 14), Want::Last),
        ],
    ),
    (
        (2, 5, 5),
        &[
            (0, 1, Given::Fit(2, 14), Want::Next(2)),
            (0, 2, Given::Fit(3, 14), Want::Next(3)),
            (0, 3, Given::Fit(1, 14), Want::Last),
        ],
    ),
];

#[test]
fn by_volume(rt: HostRuntime) -> Result<(), Fail> {
    const WANT: Answered = ((Ending::Done, 4, 3, 0), 0, false, Some(14));
    for (volumes, cases) in IN_TURN {
        assert_eq!(rt; by_volumes(rt.alloc(), *volumes, cases)?, Some(WANT));
    }
    Ok(())
}
