use crate::certificates::books::{on_one, three_stations};
use assign_check::check::first_fault;
use assign_check::fault::MapFault;
use pack_defs::channel_map::ChannelMap;
use std::test::Fail;

#[test]
fn first_of_each_fault(rt: HostRuntime) -> Result<(), Fail> {
    let alloc = rt.alloc();
    let book = three_stations(alloc)?;
    let one = ChannelMap::of(alloc, &[(1, 14)])?;
    assert_eq!(rt;
        first_fault(&book, &[1, 2, 3], &one),
        Some(MapFault::Missing(2))
    );
    let three = ChannelMap::of(alloc, &[(1, 13), (2, 15), (3, 15)])?;
    assert_eq!(rt; first_fault(&book, &[1], &three), Some(MapFault::Extra(2)));
    assert_eq!(rt;
        first_fault(&book, &[1, 2, 3], &three),
        Some(MapFault::OffDomain(1))
    );
    let same = ChannelMap::of(alloc, &[(1, 15), (2, 15), (3, 15)])?;
    let fault = Some(MapFault::Violates(on_one(1, 2, 15)));
    assert_eq!(rt; first_fault(&book, &[1, 2, 3], &same), fault);
    Ok(())
}

#[test]
fn first_fault_is_by_kind(rt: HostRuntime) -> Result<(), Fail> {
    let alloc = rt.alloc();
    let book = three_stations(alloc)?;
    let all = ChannelMap::of(alloc, &[(1, 16), (2, 14), (3, 14)])?;
    assert_eq!(rt;
        first_fault(&book, &[2, 4], &all),
        Some(MapFault::Missing(4))
    );
    assert_eq!(rt; first_fault(&book, &[2], &all), Some(MapFault::Extra(1)));
    assert_eq!(rt;
        first_fault(&book, &[1, 2, 3], &all),
        Some(MapFault::OffDomain(1))
    );
    Ok(())
}

#[test]
fn violated_pair_of_a_later_station(rt: HostRuntime) -> Result<(), Fail> {
    let alloc = rt.alloc();
    let book = three_stations(alloc)?;
    let last_two = ChannelMap::of(alloc, &[(1, 14), (2, 15), (3, 15)])?;
    let fault = Some(MapFault::Violates(on_one(2, 3, 15)));
    assert_eq!(rt; first_fault(&book, &[1, 2, 3], &last_two), fault);
    let without_second = ChannelMap::of(alloc, &[(1, 15), (3, 15)])?;
    let fault = Some(MapFault::Violates(on_one(1, 3, 15)));
    assert_eq!(rt; first_fault(&book, &[1, 3], &without_second), fault);
    Ok(())
}

#[test]
fn clean_map_has_none(rt: HostRuntime) -> Result<(), Fail> {
    let alloc = rt.alloc();
    let book = three_stations(alloc)?;
    let clean = ChannelMap::of(alloc, &[(1, 15), (2, 14)])?;
    assert_eq!(rt; first_fault(&book, &[1, 2], &clean), None);
    let empty = ChannelMap::of(alloc, &[])?;
    assert_eq!(rt; first_fault(&book, &[], &empty), None);
    Ok(())
}
