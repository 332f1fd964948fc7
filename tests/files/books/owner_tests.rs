//! The lines that `Owners` keeps, and its answers by round and station.

use pack_defs::owners::{OwnerLine, Owners};
use std::alloc::AllocError as NoMemory;
use std::test::Fail;

// Owner lines: the round, the station, whether it stays, and whether the line is new.
const SAID: &[(u32, u32, bool, bool)] = &[
    (1, 7, true, true),
    (0, 9, false, true),
    (0, 7, true, true),
    (1, 7, false, false),
    (0, 9, false, false),
    (2, 3, true, true),
];

// A round, a station, whether the two have a line, and whether that line says that the station stays.
const ASKED: &[(u32, u32, bool, bool)] = &[
    (0, 7, true, true),
    (0, 9, true, false),
    (1, 7, true, true),
    (1, 9, false, false),
    (2, 3, true, true),
    (3, 2, false, false),
    (7, 1, false, false),
];

// Checks whether every new line is added and every other one rejected.
fn are_said(owners: &mut Owners) -> Result<bool, NoMemory> {
    for (round, station, stays, is_new) in SAID {
        let line = OwnerLine {
            round: *round,
            station: *station,
            stays: *stays,
        };
        if owners.add(line)? != *is_new {
            return Ok(false);
        }
    }
    Ok(true)
}

// Checks the answer for each round and station.
fn answers(owners: &Owners) -> bool {
    for (round, station, is_said, stays) in ASKED {
        if owners.has_line_for(*round, *station) != *is_said
            || owners.stays(*round, *station) != *stays
        {
            return false;
        }
    }
    true
}

#[test]
fn lines_are_found_by_round_and_station(rt: HostRuntime) -> Result<(), Fail> {
    let alloc = rt.alloc();
    let mut owners = Owners::new(alloc);
    assert!(rt; are_said(&mut owners)?);
    let copy = owners.copy(alloc)?;
    assert!(rt; answers(&owners) && answers(&copy));
    assert_eq!(rt; copy.lines().len(), 4);
    Ok(())
}
