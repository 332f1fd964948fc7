use offer_sched::offers::{offer, schedule};
use pack_defs::fall::Fall;
use pack_defs::items::Items;
use pack_defs::scenario::Scenario;
use std::alloc::AllocError;
use std::test::Fail;

// Returns the prices of a scenario with this opening and this fall.
fn prices(rt: &HostRuntime, opening: u32, fall: Fall) -> Result<Vec<u32>, AllocError> {
    let scenario = Scenario {
        version: 1,
        top: 15,
        opening,
        fall,
        stations: Items::from_vec(Vec::new(rt.alloc())),
        workers: Items::from_vec(Vec::new(rt.alloc())),
        owners: None,
    };
    schedule(rt.alloc(), &scenario)
}

// Returns the prices for these decrements.
fn listed(rt: &HostRuntime, opening: u32, decrements: &[u32]) -> Result<Vec<u32>, AllocError> {
    let decrements = Items::from_vec(decrements.to_vec(rt.alloc())?);
    prices(rt, opening, Fall::Listed(decrements))
}

#[test]
fn falls_by_the_decrements(rt: HostRuntime) -> Result<(), Fail> {
    let prices = listed(&rt, 100, &[40, 40])?;
    assert_eq!(rt; prices.as_slice(), [100, 60, 20].as_slice());
    assert_eq!(rt; offer(&prices, 3, 1), 180);
    Ok(())
}

#[test]
fn falls_by_rate(rt: HostRuntime) -> Result<(), Fail> {
    for (opening, rate, floor, expected) in [
        (100, 400, 200, [100, 60, 36, 16, 0].as_slice()),
        (2, 1, 0, [2, 1, 0].as_slice()),
        (100, 1000, 0, [100, 0].as_slice()),
        (100, 1, 1000, [100, 0].as_slice()),
    ] {
        let prices = prices(&rt, opening, Fall::Rated { rate, floor })?;
        assert_eq!(rt; prices.as_slice(), expected);
    }
    // The schedule ends after 1,000 falls, although the price is still above 0.
    let prices = prices(&rt, 1_000_000, Fall::Rated { rate: 1, floor: 0 })?;
    assert_eq!(rt; prices.len(), 1_001);
    assert_eq!(rt; &prices[..2], [1_000_000, 999_000].as_slice());
    assert_eq!(rt; prices[1_000], 368_006);
    Ok(())
}

#[test]
fn offers_up_to_the_greatest_product(rt: HostRuntime) -> Result<(), Fail> {
    let prices = listed(&rt, 1_000_000, &[])?;
    assert_eq!(rt; prices.as_slice(), [1_000_000].as_slice());
    assert_eq!(rt; offer(&prices, 1_000_000, 0), 1_000_000_000_000);
    Ok(())
}
