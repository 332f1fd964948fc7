//! Tests of the check of answers, of auctions driven by postings, of price schedules and ledgers, and of threshold values.

mod answers;
mod auctions;
mod ledgers;
mod offers;
mod thresholds;
