//! Tests of the plain search.

use pack_defs::book::Book;
use pack_defs::domain::Domain;
use pack_defs::items::Items;
use pack_defs::pair::Pair;
use plain_pack::search::fits;
use std::alloc::{AllocError, Global};
use std::test::Fail;

// Returns the domain of a station that may use these channels.
fn station_on(alloc: Global, station: u32, channels: &[u8]) -> Result<Domain, AllocError> {
    let channels = Items::from_vec(Vec::from_slice(alloc, channels)?);
    Ok(Domain { station, channels })
}

// Returns the pair of two stations that may not both use this channel.
fn apart(f: u32, g: u32, c: u8) -> Pair {
    Pair { f, a: c, g, b: c }
}

// Returns the book of three stations on channels 14 and 15, no two of which may share one.
fn three_stations(alloc: Global) -> Result<Book, AllocError> {
    let domains = [
        station_on(alloc, 1, &[14, 15])?,
        station_on(alloc, 2, &[14, 15])?,
        station_on(alloc, 3, &[14, 15])?,
    ];
    let pairs = [
        apart(1, 2, 14),
        apart(1, 3, 14),
        apart(1, 2, 15),
        apart(1, 3, 15),
        apart(2, 3, 14),
        apart(2, 3, 15),
    ];
    Book::build(alloc, 15, &[1, 2, 3], &domains, &pairs)
}

#[test]
fn two_of_three_stations_fit(rt: HostRuntime) -> Result<(), Fail> {
    let alloc = rt.alloc();
    let book = three_stations(alloc)?;
    assert!(rt; fits(alloc, &book, &[1, 2, 3])?.is_none());
    for set in [[1, 2], [1, 3], [2, 3]] {
        let map = fits(alloc, &book, &set)?.ok_or("no map")?;
        assert_eq!(rt; map.len(), 2);
        let channels = (map.get(set[0]), map.get(set[1]));
        let either = channels == (Some(14), Some(15)) || channels == (Some(15), Some(14));
        assert!(rt; either);
    }
    Ok(())
}

#[test]
fn one_and_none_fit(rt: HostRuntime) -> Result<(), Fail> {
    let alloc = rt.alloc();
    let book = three_stations(alloc)?;
    let map = fits(alloc, &book, &[])?.ok_or("no map")?;
    assert_eq!(rt; map.len(), 0);
    let map = fits(alloc, &book, &[3])?.ok_or("no map")?;
    assert_eq!(rt; map.len(), 1);
    let channel = map.get(3);
    let either = channel == Some(14) || channel == Some(15);
    assert!(rt; either);
    Ok(())
}

#[test]
fn a_station_without_a_channel_does_not_fit(rt: HostRuntime) -> Result<(), Fail> {
    let alloc = rt.alloc();
    let domains = [station_on(alloc, 1, &[40])?, station_on(alloc, 2, &[14])?];
    let book = Book::build(alloc, 36, &[1, 2], &domains, &[])?;
    assert!(rt; fits(alloc, &book, &[1])?.is_none());
    assert!(rt; fits(alloc, &book, &[1, 2])?.is_none());
    assert!(rt; fits(alloc, &book, &[2])?.is_some());
    Ok(())
}

#[test]
fn search_backtracks(rt: HostRuntime) -> Result<(), Fail> {
    let alloc = rt.alloc();
    let domains = [
        station_on(alloc, 1, &[14, 15])?,
        station_on(alloc, 2, &[14])?,
    ];
    let book = Book::build(alloc, 15, &[1, 2], &domains, &[apart(1, 2, 14)])?;
    let map = fits(alloc, &book, &[1, 2])?.ok_or("no map")?;
    assert_eq!(rt; map.get(1), Some(15));
    assert_eq!(rt; map.get(2), Some(14));
    Ok(())
}
