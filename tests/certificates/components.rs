//! `component` returns the stations of a set that are connected to a station by pairs.

use pack_defs::book::Book;
use pack_defs::domain::Domain;
use pack_defs::items::Items;
use pack_defs::pair::Pair;
use packing_graph::component::{component, component_among};
use packing_graph::station_set::StationSet;
use std::alloc::{AllocError, Global};
use std::test::Fail;

// Returns a station with channels 14 and 15.
fn on_two(alloc: Global, station: u32) -> Result<Domain, AllocError> {
    let channels = Items::from_vec(Vec::from_slice(alloc, &[14, 15])?);
    Ok(Domain { station, channels })
}

// Returns a pair of stations that may not both use channel 14.
fn apart(f: u32, g: u32) -> Pair {
    Pair { f, a: 14, g, b: 14 }
}

// Returns a pair of stations: the first may not use channel 14 while the second uses channel 15.
fn apart_across(f: u32, g: u32) -> Pair {
    Pair { f, a: 14, g, b: 15 }
}

// Returns a book of four stations with these pairs.
fn four_stations(alloc: Global, pairs: &[Pair]) -> Result<Book, AllocError> {
    let domains = [
        on_two(alloc, 1)?,
        on_two(alloc, 2)?,
        on_two(alloc, 3)?,
        on_two(alloc, 4)?,
    ];
    Book::build(alloc, 15, &[1, 2, 3, 4], &domains, pairs)
}

#[test]
fn two_pairs_apart(rt: HostRuntime) -> Result<(), Fail> {
    let alloc = rt.alloc();
    let book = four_stations(alloc, &[apart(1, 2), apart(3, 4)])?;
    assert_eq!(rt;
        component(alloc, &book, &[2, 3], 1)?.as_slice(),
        [1, 2].as_slice()
    );
    Ok(())
}

#[test]
fn joined_by_a_third_pair(rt: HostRuntime) -> Result<(), Fail> {
    let alloc = rt.alloc();
    let book = four_stations(alloc, &[apart(1, 2), apart(2, 3), apart(3, 4)])?;
    assert_eq!(rt;
        component(alloc, &book, &[2, 3], 1)?.as_slice(),
        [1, 2, 3].as_slice()
    );
    Ok(())
}

#[test]
fn off_air_stations_do_not_connect(rt: HostRuntime) -> Result<(), Fail> {
    let alloc = rt.alloc();
    let book = four_stations(alloc, &[apart(1, 2), apart(2, 3), apart(3, 4)])?;
    assert_eq!(rt;
        component(alloc, &book, &[3, 4], 1)?.as_slice(),
        [1].as_slice()
    );
    assert_eq!(rt;
        component(alloc, &book, &[3, 4], 3)?.as_slice(),
        [3, 4].as_slice()
    );
    Ok(())
}

#[test]
fn joined_by_a_pair_across_channels(rt: HostRuntime) -> Result<(), Fail> {
    let alloc = rt.alloc();
    let book = four_stations(alloc, &[apart(1, 2), apart_across(2, 4)])?;
    assert_eq!(rt;
        component(alloc, &book, &[2, 3, 4], 1)?.as_slice(),
        [1, 2, 4].as_slice()
    );
    Ok(())
}

// The stations below 5 that are marked at their index.
#[derive(Drop)]
struct Marks {
    marks: [bool; 5],
}

impl StationSet for Marks {
    ghost stations = { λ set. filter (λ s. get_or set.marks s false) (range_with_len 0 5) };

    fn has(&self, station: u32) -> bool {
        station < 5 && self.marks[station as usize]
    }
}

#[test]
fn component_among_marked(rt: HostRuntime) -> Result<(), Fail> {
    let alloc = rt.alloc();
    let book = four_stations(alloc, &[apart(1, 2), apart(2, 3), apart(3, 4)])?;
    let on = Marks {
        marks: [false, true, true, false, true],
    };
    assert_eq!(rt;
        component_among(alloc, &book, &on, 1)?.as_slice(),
        [1, 2].as_slice()
    );
    assert_eq!(rt;
        component_among(alloc, &book, &on, 3)?.as_slice(),
        [1, 2, 3, 4].as_slice()
    );
    Ok(())
}
