use super::*;
use std::test::Fail;

// Returns eight variables in the order in which they are taken. The first of two is raised before an ageing, and the second after it.
fn taken(alloc: Global, first: u32, second: u32) -> Result<[u32; 8], NoMemory> {
    let mut order = ActivityOrder::new(alloc, 8, 0.5)?;
    for var in 1..=8 {
        order.put(var)?;
    }
    order.raise(first, 1.0);
    order.age();
    order.raise(second, 1.0);
    let mut taken = [0; 8];
    for i in 0..8 {
        taken[i] = order.take().unwrap_or(0);
    }
    Ok(taken)
}

#[test]
fn latest_bumped_comes_first(rt: HostRuntime) -> Result<(), Fail> {
    for (first, second) in [(5, 3), (3, 5), (8, 1), (1, 8)] {
        let taken = taken(rt.alloc(), first, second)?;
        assert_eq!(rt; (taken[0], taken[1]), (second, first));
        for var in 1..=8 {
            assert!(rt; taken.contains(&var), "{var} after {first}");
        }
    }
    Ok(())
}
