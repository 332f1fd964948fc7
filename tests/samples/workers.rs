//! Workers with seed 0.

use pack_defs::worker::{Kind, Worker};

/// Returns a `cdcl` worker with this budget in lines.
pub fn learner(budget: u32) -> Worker {
    Worker {
        kind: Kind::Cdcl,
        budget,
        seed: 0,
    }
}

/// Returns a `walk` worker with this budget in moves.
pub fn walker(budget: u32) -> Worker {
    Worker {
        kind: Kind::Walk,
        budget,
        seed: 0,
    }
}
