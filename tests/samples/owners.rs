//! Answers of the owners of stations 1 to 3.

use pack_defs::owners::{OwnerLine, Owners};
use std::alloc::{AllocError as NoMemory, Global};

/// Lines of owners: the round, the station, and whether the station stays.
pub type SaidLines = &'static [(u32, u32, bool)];

/// Returns the owners with these lines.
pub fn owners_of_lines(alloc: Global, lines: SaidLines) -> Result<Owners, NoMemory> {
    let mut owners = Owners::new(alloc);
    for (round, station, stays) in lines {
        owners.add(OwnerLine {
            round: *round,
            station: *station,
            stays: *stays,
        })?;
    }
    Ok(owners)
}

/// Station 2 leaves in round 1 and station 1 in round 2, as with values of 70 and 50. Station 3 stays.
pub const AS_BID: SaidLines = &[
    (0, 1, true),
    (1, 1, true),
    (0, 2, true),
    (0, 3, true),
    (1, 3, true),
    (2, 3, true),
];

/// The lines of `AS_BID`, except that station 2 declines the opening offer.
pub const SECOND_DECLINES: SaidLines = &[
    (0, 1, true),
    (1, 1, true),
    (0, 3, true),
    (1, 3, true),
    (2, 3, true),
];

/// Station 1 leaves in round 1, and its owner answers "stay" in round 2. Station 2 leaves in round 2, and station 3 stays.
pub const FIRST_LEAVES: SaidLines = &[
    (0, 1, true),
    (2, 1, true),
    (0, 2, true),
    (1, 2, true),
    (0, 3, true),
    (1, 3, true),
    (2, 3, true),
];

/// Station 1 stays in each round. Station 2 leaves in round 1 and station 3 in round 2.
pub const FIRST_STAYS: SaidLines = &[
    (0, 1, true),
    (1, 1, true),
    (2, 1, true),
    (0, 2, true),
    (0, 3, true),
    (1, 3, true),
];

/// All three stations stay in each round.
pub const ALL_STAY: SaidLines = &[
    (0, 1, true),
    (1, 1, true),
    (2, 1, true),
    (0, 2, true),
    (1, 2, true),
    (2, 2, true),
    (0, 3, true),
    (1, 3, true),
    (2, 3, true),
];
