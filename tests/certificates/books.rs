//! A book for these tests.

use pack_defs::book::Book;
use pack_defs::domain::Domain;
use pack_defs::items::Items;
use pack_defs::pair::Pair;
use std::alloc::{AllocError as NoMemory, Global};

// Returns a station with channels 14 and 15.
pub(crate) fn on_both(alloc: Global, station: u32) -> Result<Domain, NoMemory> {
    let channels = Items::from_vec(Vec::from_slice(alloc, &[14, 15])?);
    Ok(Domain { station, channels })
}

// Returns a pair of stations that may not share this channel.
pub(crate) fn on_one(f: u32, g: u32, c: u8) -> Pair {
    Pair { f, a: c, g, b: c }
}

// Returns a book of three stations on two channels; no two stations may share a channel.
pub(crate) fn three_stations(alloc: Global) -> Result<Book, NoMemory> {
    let domains = [on_both(alloc, 1)?, on_both(alloc, 2)?, on_both(alloc, 3)?];
    let pairs = [
        on_one(1, 2, 14),
        on_one(1, 3, 14),
        on_one(1, 2, 15),
        on_one(1, 3, 15),
        on_one(2, 3, 14),
        on_one(2, 3, 15),
    ];
    Book::build(alloc, 15, &[1, 2, 3], &domains, &pairs)
}
