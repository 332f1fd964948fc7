//! Tests of a book's numbers: rivals, and which book the numbers are of.

use super::*;
use pack_defs::book::Book;
use pack_defs::domain::Domain;
use pack_defs::items::Items;
use pack_defs::pair::Pair;
use std::test::Fail;

// Returns the book of stations 1 and 2 on channels 14 and 15, with these pairs of channels that interfere.
fn two_stations(alloc: Global, pairs: &[(u8, u8)]) -> Result<Book, NoMemory> {
    let mut domains = Vec::new(alloc);
    for station in 1..3 {
        let channels = Items::from_vec(Vec::from_slice(alloc, &[14, 15])?);
        domains.push(Domain { station, channels })?;
    }
    let mut list = Vec::new(alloc);
    for (a, b) in pairs {
        let (a, b) = (*a, *b);
        list.push(Pair { f: 1, a, g: 2, b })?;
    }
    Book::build(alloc, 15, &[1, 2], &domains, &list)
}

// Variables 0 and 1 are station 1 on 14 and 15, variables 2 and 3 station 2.
#[test]
fn rivals_ascend_on_both_sides(rt: HostRuntime) -> Result<(), Fail> {
    let alloc = rt.alloc();
    let grid = Grid::of(alloc, &two_stations(alloc, &[(14, 14), (14, 15), (15, 15)])?)?;
    assert_eq!(rt; grid.vars(), 4);
    assert_eq!(rt; grid.rival_list(0), [2, 3].as_slice());
    assert_eq!(rt; grid.rival_list(1), [3].as_slice());
    assert_eq!(rt; grid.rival_list(2), [0].as_slice());
    assert_eq!(rt; grid.rival_list(3), [0, 1].as_slice());
    Ok(())
}

// A book with as many pairs as another isn't taken for it.
#[test]
fn numbers_are_of_one_book(rt: HostRuntime) -> Result<(), Fail> {
    let alloc = rt.alloc();
    let book = two_stations(alloc, &[(14, 14), (15, 15)])?;
    let grid = Grid::of(alloc, &book)?;
    assert!(rt; grid.is_of(&book));
    assert!(rt; grid.is_of(&two_stations(alloc, &[(14, 14), (15, 15)])?));
    let other = two_stations(alloc, &[(14, 14), (14, 15)])?;
    assert!(rt; grid.may_be_of(&other));
    assert!(rt; !grid.is_of(&other));
    Ok(())
}

// Returns the book of these stations with their channels, of which no two interfere.
fn apart(alloc: Global, stations: &[(u32, &[u8])]) -> Result<Book, NoMemory> {
    let mut names = Vec::new(alloc);
    let mut domains = Vec::new(alloc);
    for (station, channels) in stations {
        names.push(*station)?;
        let channels = Items::from_vec(Vec::from_slice(alloc, *channels)?);
        domains.push(Domain { station: *station, channels })?;
    }
    Book::build(alloc, 51, &names, &domains, &[])
}

// The digest tells a station's number from a channel's: both books give the numbers 1, 14, 15 and 16 in turn.
#[test]
fn numbers_tell_stations_from_channels(rt: HostRuntime) -> Result<(), Fail> {
    let alloc = rt.alloc();
    let book = apart(alloc, &[(1, &[14, 15]), (16, &[])])?;
    let grid = Grid::of(alloc, &book)?;
    assert!(rt; grid.is_of(&book));
    let other = apart(alloc, &[(1, &[14]), (15, &[16])])?;
    assert!(rt; grid.may_be_of(&other));
    assert!(rt; !grid.is_of(&other));
    Ok(())
}
