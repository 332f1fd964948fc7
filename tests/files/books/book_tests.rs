//! The stations, domains, pairs and neighbours of a book.

use pack_defs::book::Book;
use pack_defs::domain::Domain;
use pack_defs::items::Items;
use pack_defs::pair::Pair;
use std::alloc::{AllocError as NoMemory, Global};
use std::test::Fail;

// Returns the domain of a station with channels 14 and 15.
fn on_both(alloc: Global, station: u32) -> Result<Domain, NoMemory> {
    let channels = Items::from_vec(Vec::from_slice(alloc, &[14, 15])?);
    Ok(Domain { station, channels })
}

fn on_one(f: u32, g: u32, c: u8) -> Pair {
    Pair { f, a: c, g, b: c }
}

#[test]
fn top_channel_cuts_domains_and_pairs(rt: HostRuntime) -> Result<(), Fail> {
    let alloc = rt.alloc();
    let domains = [on_both(alloc, 1)?, on_both(alloc, 2)?, on_both(alloc, 3)?];
    let pairs = [
        on_one(1, 2, 14),
        on_one(1, 3, 14),
        on_one(1, 2, 15),
        on_one(1, 3, 15),
        on_one(2, 3, 14),
        on_one(2, 3, 15),
    ];
    let book = Book::build(alloc, 14, &[1, 2, 3], &domains, &pairs)?;
    assert_eq!(rt; book.top(), 14);
    assert_eq!(rt; book.len(), 3);
    assert_eq!(rt; book.facility(2), 3);
    assert_eq!(rt; book.index_of(2), Some(1));
    assert_eq!(rt; book.index_of(4), None);
    assert_eq!(rt; book.domain(2), [14].as_slice());
    assert_eq!(rt;
        book.pairs(),
        [on_one(1, 2, 14), on_one(1, 3, 14), on_one(2, 3, 14)].as_slice()
    );
    assert!(rt; book.forbids(3, 14, 1, 14));
    assert!(rt; !book.forbids(1, 15, 3, 15));
    Ok(())
}

// Returns a book of five stations on two channels; the last one interferes with none.
fn five_stations(alloc: Global) -> Result<Book, NoMemory> {
    let domains = [
        on_both(alloc, 10)?,
        on_both(alloc, 20)?,
        on_both(alloc, 30)?,
        on_both(alloc, 40)?,
        on_both(alloc, 50)?,
    ];
    let pairs = [
        on_one(10, 20, 14),
        on_one(10, 30, 14),
        on_one(10, 30, 15),
        on_one(20, 30, 14),
        on_one(20, 40, 14),
        on_one(30, 40, 15),
    ];
    Book::build(alloc, 15, &[10, 20, 30, 40, 50], &domains, &pairs)
}

#[test]
fn copy_has_all(rt: HostRuntime) -> Result<(), Fail> {
    let alloc = rt.alloc();
    let book = five_stations(alloc)?;
    let copy = book.copy(alloc)?;
    assert_eq!(rt; copy.top(), 15);
    assert_eq!(rt; copy.domain(40), [14, 15].as_slice());
    assert_eq!(rt; copy.pairs(), book.pairs());
    assert_eq!(rt; copy.pairs_to(20), [on_one(10, 20, 14)].as_slice());
    Ok(())
}

#[test]
fn pairs_from_each_station(rt: HostRuntime) -> Result<(), Fail> {
    let book = five_stations(rt.alloc())?;
    let of_first = [on_one(10, 20, 14), on_one(10, 30, 14), on_one(10, 30, 15)];
    assert_eq!(rt; book.pairs_from(10), of_first.as_slice());
    let of_second = [on_one(20, 30, 14), on_one(20, 40, 14)];
    assert_eq!(rt; book.pairs_from(20), of_second.as_slice());
    assert_eq!(rt; book.pairs_from(30), [on_one(30, 40, 15)].as_slice());
    assert_eq!(rt; book.pairs_from(40), [].as_slice());
    assert_eq!(rt; book.pairs_from(50), [].as_slice());
    assert_eq!(rt; book.pairs_from(25), [].as_slice());
    Ok(())
}

#[test]
fn pairs_to_each_station(rt: HostRuntime) -> Result<(), Fail> {
    let book = five_stations(rt.alloc())?;
    assert_eq!(rt; book.pairs_to(10), [].as_slice());
    assert_eq!(rt; book.pairs_to(20), [on_one(10, 20, 14)].as_slice());
    let to_third = [on_one(10, 30, 14), on_one(10, 30, 15), on_one(20, 30, 14)];
    assert_eq!(rt; book.pairs_to(30), to_third.as_slice());
    let to_fourth = [on_one(20, 40, 14), on_one(30, 40, 15)];
    assert_eq!(rt; book.pairs_to(40), to_fourth.as_slice());
    assert_eq!(rt; book.pairs_to(50), [].as_slice());
    assert_eq!(rt; book.pairs_to(35), [].as_slice());
    Ok(())
}

// Checks whether a station has exactly these neighbours, in the book and in its copy.
fn has_neighbours(book: &Book, copy: &Book, station: u32, near: &[u32]) -> bool {
    book.neighbours(station) == near && copy.neighbours(station) == near
}

#[test]
fn neighbours_of_each_station(rt: HostRuntime) -> Result<(), Fail> {
    let alloc = rt.alloc();
    let book = five_stations(alloc)?;
    let copy = book.copy(alloc)?;
    assert!(rt; has_neighbours(&book, &copy, 10, &[20, 30]));
    assert!(rt; has_neighbours(&book, &copy, 20, &[10, 30, 40]));
    assert!(rt; has_neighbours(&book, &copy, 30, &[10, 20, 40]));
    assert!(rt; has_neighbours(&book, &copy, 40, &[20, 30]));
    assert!(rt; has_neighbours(&book, &copy, 50, &[]));
    assert!(rt; has_neighbours(&book, &copy, 35, &[]));
    Ok(())
}
