//! Transcripts that several modules use in their tests.

// Stations 1 to 3 are tested in round 1, and stations 1 and 3 in round 2. The set of all three does not fit.
pub(crate) const THREE_STATIONS: &[u8] =
    b"transcript 1\nstart empty\nfit 1 1 1\nat 1 14\nfit 1 2 1\nat 2 14\nfit 1 3 1\nat 3 15\nfit 2 1 1\nat 1 15\nlog 2 3 0 2\non 1 2 3\n13 -1 0 7 2 8 3 12 0\n14 0 13 1 9 2 10 3 11 0\nend 5\n";

// The same tests by volume.
pub(crate) const THREE_BY_VOLUME: &[u8] =
    b"transcript 2\nstart empty\nfit 1 1 1\nat 1 14\nfit 1 2 1\nat 2 14\nfit 1 3 1\nat 3 15\nfit 2 1 1\nat 1 15\nlog 2 3 0 2\non 1 2 3\n13 -1 0 7 2 8 3 12 0\n14 0 13 1 9 2 10 3 11 0\nend 5\n";

// Station 2 is on air from the start, so station 1 is tested with it in both rounds.
pub(crate) const SECOND_ON_AIR: &[u8] =
    b"transcript 1\nstart fit 1\nat 2 14\nfit 1 1 1\nat 1 15\nfit 1 3 1\nat 3 15\nsame 2 1\nlog 2 3 0 2\non 1 2 3\n13 -1 0 7 2 8 3 12 0\n14 0 13 1 9 2 10 3 11 0\nend 4\n";

// A worker with a budget of one line leaves the last test undecided.
pub(crate) const LAST_LEFT_OPEN: &[u8] =
    b"transcript 1\nstart empty\nfit 1 1 1\nat 1 14\nfit 1 2 1\nat 2 14\nfit 1 3 1\nat 3 15\nfit 2 1 1\nat 1 15\nundecided 2 3 1\nlines 0 1\n13 -1 0 7 2 8 3 12 0\nend 5\n";

// The only test is of a station without a channel.
pub(crate) const LONE_STATION: &[u8] = b"transcript 1\nstart empty\nnone 1 1\nend 1\n";
