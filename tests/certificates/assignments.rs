use crate::certificates::books::three_stations;
use assign_check::assignment::Assignment;
use std::test::Fail;

#[test]
fn move_takes_away_the_pairs_of_a_station(rt: HostRuntime) -> Result<(), Fail> {
    let alloc = rt.alloc();
    let book = three_stations(alloc)?;
    let entries = Vec::from_slice(alloc, &[(1, 14), (2, 14), (3, 14)])?;
    let mut all = Assignment::of(&book, entries);
    assert_eq!(rt; all.violations(), 3);
    assert_eq!(rt; all.violations_of(&book, 1), 2);
    all.put(&book, 1, 15);
    assert_eq!(rt; all.violations(), 1);
    assert_eq!(rt; all.violations_of(&book, 1), 0);
    assert_eq!(rt; all.entries(), [(1, 15), (2, 14), (3, 14)].as_slice());
    Ok(())
}

#[test]
fn partner_stands_first_or_second(rt: HostRuntime) -> Result<(), Fail> {
    let alloc = rt.alloc();
    let book = three_stations(alloc)?;
    let entries = Vec::from_slice(alloc, &[(1, 14), (2, 14), (3, 15)])?;
    let mut two = Assignment::of(&book, entries);
    assert_eq!(rt; two.violations_of(&book, 1), 1);
    assert_eq!(rt; two.violations_of(&book, 2), 1);
    assert_eq!(rt; two.violations_of(&book, 3), 0);
    two.put(&book, 3, 14);
    assert_eq!(rt; two.violations_of(&book, 2), 2);
    assert_eq!(rt; two.violations(), 3);
    Ok(())
}

#[test]
fn station_without_pairs(rt: HostRuntime) -> Result<(), Fail> {
    let alloc = rt.alloc();
    let book = three_stations(alloc)?;
    let entries = Vec::from_slice(alloc, &[(1, 14), (4, 14)])?;
    let mut apart = Assignment::of(&book, entries);
    apart.put(&book, 4, 15);
    assert_eq!(rt; apart.channel(4), Some(15));
    assert_eq!(rt; apart.violations_of(&book, 4), 0);
    assert_eq!(rt; apart.channel(2), None);
    assert_eq!(rt; apart.violations_of(&book, 2), 0);
    assert_eq!(rt; apart.entries(), [(1, 14), (4, 15)].as_slice());
    Ok(())
}
