//! Auctions that continue from the beginning of a transcript, as runs of the whole program in memory.

mod resumed;
