//! The entries of a channel map, and a map that overwrites another.

use pack_defs::channel_map::ChannelMap;
use std::test::Fail;

#[test]
fn gives_its_entries(rt: HostRuntime) -> Result<(), Fail> {
    let map = ChannelMap::of(rt.alloc(), &[(1, 14), (3, 15)])?;
    assert_eq!(rt; map.len(), 2);
    assert_eq!(rt; map.entries(), [(1, 14), (3, 15)].as_slice());
    assert_eq!(rt; map.get(3), Some(15));
    assert_eq!(rt; map.get(2), None);
    assert!(rt; map.has(3, 15) && !map.has(3, 14) && !map.has(2, 15));
    Ok(())
}

#[test]
fn delta_overwrites_and_adds(rt: HostRuntime) -> Result<(), Fail> {
    let alloc = rt.alloc();
    let map = ChannelMap::of(alloc, &[(1, 14), (3, 15)])?;
    let delta = ChannelMap::of(alloc, &[(2, 15), (3, 14), (5, 20)])?;
    let over = map.overlay(alloc, &delta)?;
    assert_eq!(rt;
        over.entries(),
        [(1, 14), (2, 15), (3, 14), (5, 20)].as_slice()
    );
    Ok(())
}
