use super::*;
use pack_defs::book::Book;
use pack_defs::domain::Domain;
use pack_defs::items::Items;
use pack_defs::pair::Pair;
use std::test::Fail;

// Returns the grid of stations numbered from 0 that may use these channels. No two stations may share a channel.
fn grid(alloc: Global, channels: &[&[u8]]) -> Result<Grid, NoMemory> {
    let mut ids = Vec::new(alloc);
    let mut domains = Vec::new(alloc);
    let mut pairs = Vec::new(alloc);
    for (f, list) in channels.iter().enumerate() {
        let station = saturating_u32(f);
        ids.push(station)?;
        domains.push(Domain {
            station,
            channels: Items::from_vec(Vec::from_slice(alloc, list)?),
        })?;
        for (g, other) in channels.iter().enumerate() {
            for c in *list {
                if g > f && other.contains(c) {
                    let g = saturating_u32(g);
                    pairs.push(Pair { f: station, a: *c, g, b: *c })?;
                }
            }
        }
    }
    Grid::of(alloc, &Book::build(alloc, 51, &ids, &domains, &pairs)?)
}

fn var(grid: &Grid, place: u32, channel: u8) -> u32 {
    grid.var_of(place, channel).unwrap_or(NOWHERE)
}

// Checks whether each variable is blocked by the weight of the stations in its way, recounted.
fn counts_are_right(grid: &Grid, search: &LocalSearch) -> bool {
    for var in 0..grid.vars() {
        let mut weight: u32 = 0;
        for rival in grid.rival_list(var) {
            let station = search.station(grid.owner(*rival));
            if station.var == *rival {
                weight = weight.saturating_add(station.weight);
            }
        }
        if read(&search.blocked, var, u32::MAX) != weight {
            return false;
        }
    }
    true
}

// Station 0 has one channel, and each other one makes way for the one before it. So the only map moves all three.
#[test]
fn stations_make_way_one_after_the_other(rt: HostRuntime) -> Result<(), Fail> {
    let alloc = rt.alloc();
    let grid = grid(alloc, &[&[14], &[14, 15], &[15, 16]])?;
    for seed in 0..20 {
        let mut search = LocalSearch::new(alloc, &grid, seed)?;
        search.set_channel(&grid, 1, var(&grid, 1, 14));
        search.set_channel(&grid, 2, var(&grid, 2, 15));
        assert!(rt; search.find(&grid, 0, &[], 1000)?, "seed {seed}");
        let mut found = [NOWHERE; 3];
        for change in search.changes() {
            write(&mut found, change.place, change.var);
        }
        assert_eq!(rt; found, [var(&grid, 0, 14), var(&grid, 1, 15), var(&grid, 2, 16)]);
        // The map itself is as it was.
        assert_eq!(rt; search.station(1).var, var(&grid, 1, 14));
        assert_eq!(rt; search.station(0).var, NOWHERE);
        assert!(rt; counts_are_right(&grid, &search), "seed {seed}");
    }
    Ok(())
}

#[test]
fn a_known_fit_needs_no_move(rt: HostRuntime) -> Result<(), Fail> {
    let alloc = rt.alloc();
    let grid = grid(alloc, &[&[14], &[14, 15], &[15, 16]])?;
    let mut search = LocalSearch::new(alloc, &grid, 0)?;
    search.set_channel(&grid, 1, var(&grid, 1, 14));
    search.set_channel(&grid, 2, var(&grid, 2, 15));
    let from = [(0, 14), (1, 15), (2, 16)].map(|it| Placement { place: it.0, var: var(&grid, it.0, it.1) });
    assert!(rt; search.find(&grid, 0, &from, 0)?);
    assert_eq!(rt; search.changes().len(), 3);
    assert!(rt; counts_are_right(&grid, &search));
    Ok(())
}

#[test]
fn no_map_is_found_where_there_is_none(rt: HostRuntime) -> Result<(), Fail> {
    let alloc = rt.alloc();
    let grid = grid(alloc, &[&[14, 15], &[14, 15], &[14, 15]])?;
    let mut search = LocalSearch::new(alloc, &grid, 0)?;
    search.set_channel(&grid, 0, var(&grid, 0, 14));
    search.set_channel(&grid, 1, var(&grid, 1, 15));
    // So many moves that the weights are divided in the end.
    assert!(rt; !search.find(&grid, 2, &[], 250_000)?);
    assert_eq!(rt; search.moves, 250_000);
    assert_eq!(rt; search.station(0).var, var(&grid, 0, 14));
    assert_eq!(rt; search.station(1).var, var(&grid, 1, 15));
    assert!(rt; search.station(0).weight < MOST_WEIGHT);
    assert!(rt; counts_are_right(&grid, &search));
    Ok(())
}
