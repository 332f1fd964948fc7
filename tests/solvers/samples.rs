//! Books and queries for the tests of several solvers.

use cert_types::task::Task;
use constraint_files::domains::read_domains;
use constraint_files::pairs::read_pairs;
use pack_defs::book::Book;
use pack_defs::channel_map::ChannelMap;
use pack_defs::domain::Domain;
use pack_defs::items::Items;
use pack_defs::limits::MOST_STATIONS;
use std::alloc::{AllocError as NoMemory, Global};

// Returns query 5 about these stations, with these last channels and no tested station.
pub(crate) fn task(alloc: Global, set: &[u32], last: &[(u32, u8)]) -> Result<Task, NoMemory> {
    task_of(alloc, None, set, last)
}

// Returns query 5 about these stations, with these last channels and this tested station.
pub(crate) fn task_of(
    alloc: Global,
    station: Option<u32>,
    set: &[u32],
    last: &[(u32, u8)],
) -> Result<Task, NoMemory> {
    Ok(Task {
        number: 5,
        round: 1,
        station,
        set: Items::from_vec(Vec::from_slice(alloc, set)?),
        last: ChannelMap::of(alloc, last)?,
    })
}

// Returns the book of two constraint files.
pub(crate) fn book(alloc: Global, domains: &str, rows: &str) -> Option<Book> {
    let domains = read_domains(alloc, domains.as_bytes()).ok()?;
    let pairs = read_pairs(alloc, rows.as_bytes(), &domains).ok()?;
    let ids = ids_of(alloc, domains.list()).ok()?;
    if ids.len() as u64 > MOST_STATIONS {
        return None;
    }
    Book::build(alloc, 51, &ids, domains.list(), pairs.list()).ok()
}

fn ids_of(alloc: Global, domains: &[Domain]) -> Result<Vec<u32>, NoMemory> {
    domains.iter().map(|domain| domain.station).collect(alloc)
}
