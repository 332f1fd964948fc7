//! Tests of turn locks, of boards that several passes post to, and of auctions whose workers race.

mod boards;
mod locks;
mod races;
