//! Queries for the tests.

use cert_types::task::Task;
use pack_defs::channel_map::ChannelMap;
use pack_defs::items::Items;
use std::alloc::{AllocError as NoMemory, Global};

// Returns query 5, whose set is the stations with channels in `last` and the tested station.
pub(crate) fn task(
    alloc: Global,
    station: Option<u32>,
    last: &[(u32, u8)],
) -> Result<Task, NoMemory> {
    let last = map_of(alloc, last)?;
    let all = match station {
        Some(s) => last.overlay(alloc, &ChannelMap::of(alloc, &[(s, 0)])?)?,
        None => ChannelMap::of(alloc, last.entries())?,
    };
    let set: Vec<u32> = all.entries().iter().map(|x| x.0).collect(alloc)?;
    Ok(Task {
        number: 5,
        round: 1,
        station,
        set: Items::from_vec(set),
        last,
    })
}

// Returns the map of these entries, which may come in any order.
fn map_of(alloc: Global, entries: &[(u32, u8)]) -> Result<ChannelMap, NoMemory> {
    let mut map = ChannelMap::of(alloc, &[])?;
    for x in entries {
        map = map.overlay(alloc, &ChannelMap::of(alloc, &[*x])?)?;
    }
    Ok(map)
}
