//! Books of a few stations with channels up to 15, and their components.

use pack_defs::book::Book;
use pack_defs::domain::Domain;
use pack_defs::items::Items;
use pack_defs::pair::Pair;
use std::alloc::{AllocError as NoMemory, Global};

/// Returns the domain of a station that may use these channels.
pub fn on(alloc: Global, station: u32, channels: &[u8]) -> Result<Domain, NoMemory> {
    let channels = Items::from_vec(Vec::from_slice(alloc, channels)?);
    Ok(Domain { station, channels })
}

/// Returns the pair of two stations that may not share this channel.
pub fn apart(f: u32, g: u32, c: u8) -> Pair {
    Pair { f, a: c, g, b: c }
}

/// Returns the pairs with which no two of stations 1 to 3 may share channel 14 or 15.
pub fn all_apart(alloc: Global) -> Result<Vec<Pair>, NoMemory> {
    Ok(vec![in alloc;
        apart(1, 2, 14),
        apart(1, 3, 14),
        apart(1, 2, 15),
        apart(1, 3, 15),
        apart(2, 3, 14),
        apart(2, 3, 15),
    ]?)
}

/// Returns the book of these stations.
pub fn book(
    alloc: Global,
    ids: &[u32],
    domains: &[Domain],
    pairs: &[Pair],
) -> Result<Book, NoMemory> {
    Book::build(alloc, 15, ids, domains, pairs)
}

/// Returns the book of stations 1 to 3 on channels 14 and 15, no two of which may share one.
pub fn three_stations(alloc: Global) -> Result<Book, NoMemory> {
    let domains = [
        on(alloc, 1, &[14, 15])?,
        on(alloc, 2, &[14, 15])?,
        on(alloc, 3, &[14, 15])?,
    ];
    let pairs = all_apart(alloc)?;
    Book::build(alloc, 15, &[1, 2, 3], &domains, &pairs)
}

/// Returns the book of station 1 without a channel.
pub fn lone_station(alloc: Global) -> Result<Book, NoMemory> {
    book(alloc, &[1], &[], &[])
}
