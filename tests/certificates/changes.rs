use crate::certificates::books::three_stations;
use assign_check::changes::violates_at_some;
use pack_defs::channel_map::ChannelMap;
use std::test::Fail;

#[test]
fn pairs_of_the_changed_stations_are_looked_at(rt: HostRuntime) -> Result<(), Fail> {
    let alloc = rt.alloc();
    let book = three_stations(alloc)?;
    let last = ChannelMap::of(alloc, &[(1, 14), (2, 15)])?;
    let cases: [(&[(u32, u8)], bool); 7] = [
        (&[], false),
        // A pair from the changed station, a pair to the changed station, and a pair of two changed stations.
        (&[(1, 15)], true),
        (&[(2, 14)], true),
        (&[(1, 16), (3, 14)], false),
        (&[(1, 16), (3, 15)], true),
        (&[(2, 16), (3, 16)], false),
        (&[(1, 15), (2, 14)], false),
    ];
    for (changes, want) in cases {
        let changes = ChannelMap::of(alloc, changes)?;
        assert_eq!(rt; violates_at_some(&book, &last, &changes), want);
    }
    // A pair that was violated before the changes is not checked.
    let last = ChannelMap::of(alloc, &[(1, 14), (2, 14)])?;
    let changes = ChannelMap::of(alloc, &[(3, 15)])?;
    assert!(rt; !violates_at_some(&book, &last, &changes));
    Ok(())
}
