use freeze_ledger::ledger::Ledger;
use std::alloc::{AllocError as NoMemory, Global};
use std::test::Fail;

// Returns a ledger in which these stations are frozen in this order, each at its price.
fn frozen(alloc: Global, entries: &[(u32, u64)]) -> Result<Ledger, NoMemory> {
    let mut ledger = Ledger::new(alloc);
    for (s, price) in entries {
        ledger.reserve(1)?;
        if ledger.paid(*s).is_none() && ledger.total().checked_add(*price).is_some() {
            ledger.freeze(*s, *price);
        }
    }
    Ok(ledger)
}

// Stations come in any order, and each keeps its own price.
#[test]
fn pays_each_its_own_price(rt: HostRuntime) -> Result<(), Fail> {
    let ledger = frozen(rt.alloc(), &[(8, 60), (3, 100), (5, 0), (4_294_967_295, 7)])?;
    for (s, paid) in [
        (3, Some(100)),
        (4, None),
        (5, Some(0)),
        (8, Some(60)),
        (9, None),
        (4_294_967_295, Some(7)),
    ] {
        assert_eq!(rt; ledger.paid(s), paid);
    }
    assert_eq!(rt; ledger.total(), 167);
    Ok(())
}

// The total is the sum of the prices, up to the greatest 64-bit number.
#[test]
fn sums_the_prices(rt: HostRuntime) -> Result<(), Fail> {
    for (entries, total) in [
        ([].as_slice(), 0),
        ([(1, 5)].as_slice(), 5),
        ([(2, 5), (1, 6)].as_slice(), 11),
        (
            [(2, 18_446_744_073_709_551_614), (1, 1)].as_slice(),
            18_446_744_073_709_551_615,
        ),
    ] {
        assert_eq!(rt; frozen(rt.alloc(), entries)?.total(), total);
    }
    Ok(())
}

// Reserving room changes no price, also for zero entries.
#[test]
fn makes_room(rt: HostRuntime) -> Result<(), Fail> {
    let mut ledger = frozen(rt.alloc(), &[(2, 5)])?;
    for more in [0, 1, 1_000] {
        ledger.reserve(more)?;
        assert_eq!(rt; ledger.paid(2), Some(5));
        assert_eq!(rt; ledger.total(), 5);
    }
    Ok(())
}
