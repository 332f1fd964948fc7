use super::*;
use pack_defs::book::Book;
use pack_defs::domain::Domain;
use pack_defs::items::Items;
use pack_defs::pair::Pair;
use search_base::grid::Grid;
use std::sync::Arc;

impl Engine {
    /// Returns an engine of stations numbered from 0, on channels from 14. No two stations may share a channel.
    pub(crate) fn crowded(alloc: Global, stations: u32, channels: u8) -> Result<Engine, NoMemory> {
        let mut ids = Vec::new(alloc);
        let mut domains = Vec::new(alloc);
        let mut pairs = Vec::new(alloc);
        for station in 0..stations {
            let mut list = Vec::new(alloc);
            for row in 0..channels {
                list.push(row.saturating_add(14))?;
            }
            ids.push(station)?;
            domains.push(Domain {
                station,
                channels: Items::from_vec(list),
            })?;
            for other in station.saturating_add(1)..stations {
                for row in 0..channels {
                    let channel = row.saturating_add(14);
                    pairs.push(Pair {
                        f: station,
                        a: channel,
                        g: other,
                        b: channel,
                    })?;
                }
            }
        }
        let book = Book::build(alloc, 51, &ids, &domains, &pairs)?;
        let grid = Arc::new(alloc, Grid::of(alloc, &book)?)?;
        Engine::new(alloc, grid, Purpose::Answers, 0)
    }
}
