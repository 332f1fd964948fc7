//! Owners' files that are accepted or rejected.

use owner_line::error::{OwnerErr, OwnerWhy};
use owner_line::read::read_owners;
use std::alloc::Global;

// Returns whether a file says that a station stays in a round, or `None` if the file is rejected. The auction has stations 1 to 3, and the
// price falls twice.
fn says(alloc: Global, bytes: &[u8], round: u32, station: u32) -> Option<bool> {
    match read_owners(alloc, bytes, 2, &[1, 2, 3]) {
        Ok(owners) => Some(owners.stays(round, station)),
        Err(_) => None,
    }
}

// Returns the number of owner lines of a file for the same auction.
fn count(alloc: Global, bytes: &[u8]) -> Option<usize> {
    match read_owners(alloc, bytes, 2, &[1, 2, 3]) {
        Ok(owners) => Some(owners.lines().len()),
        Err(_) => None,
    }
}

// Returns the line and the cause for which a file is rejected for the same auction.
fn refusal(alloc: Global, bytes: &[u8]) -> Option<(u64, OwnerWhy)> {
    match read_owners(alloc, bytes, 2, &[1, 2, 3]) {
        Err(OwnerErr::Row { line, why }) => Some((line, why)),
        _ => None,
    }
}

// Station 1 stays in every round, station 2 leaves after the first, and station 3 has no line. Blanks, empty fields at a line's end, empty
// lines and leading zeros are ignored. The last line needs no line end.
const SAID: &[u8] = b"0,1,stay\n 1 ,\t1,stay ,,\n\n2,01,stay\n1,2,leave\r\n ,\n0,2,\"stay\"";

// A station stays where its line says so, and leaves without a line.
#[test]
fn stays_and_leaves(rt: HostRuntime) {
    let cases: [(&[u8], u32, u32, bool); 9] = [
        (SAID, 0, 1, true),
        (SAID, 1, 1, true),
        (SAID, 2, 1, true),
        (SAID, 0, 2, true),
        (SAID, 1, 2, false),
        (SAID, 2, 2, false),
        (SAID, 0, 3, false),
        (b"", 0, 1, false),
        (b"0,1,leave", 0, 1, false),
    ];
    for (file, round, station, stays) in cases {
        assert_eq!(rt; says(rt.alloc(), file, round, station), Some(stays));
    }
    assert_eq!(rt; count(rt.alloc(), SAID), Some(5));
    assert_eq!(rt; count(rt.alloc(), b""), Some(0));
}

// A file is rejected at its first invalid record, for that record's first error.
#[test]
fn refused(rt: HostRuntime) {
    let cases: [(&[u8], u64, OwnerWhy); 14] = [
        (b"0,1\n", 1, OwnerWhy::Fields),
        (b"0,1,stay\n0,2,stay,3\n", 2, OwnerWhy::Fields),
        (b"x,1,,\n", 1, OwnerWhy::Fields),
        (b"-1,1,stay\n", 1, OwnerWhy::BadNumber),
        (b"3,x,stay\n", 1, OwnerWhy::BadNumber),
        (b"0,4294967296,stay\n", 1, OwnerWhy::BadNumber),
        (b"3,1,stay", 1, OwnerWhy::RoundRange),
        (b"3,4,maybe\n", 1, OwnerWhy::RoundRange),
        (b"2,4,maybe\n", 1, OwnerWhy::UnknownStation),
        (b"1,1,maybe\n", 1, OwnerWhy::BadWord),
        (b"1,1,stay\n1,1,Stay\n", 2, OwnerWhy::BadWord),
        (
            b"1,1,stay\n0,1,stay\n1,2,stay\n1,1,stay\n",
            4,
            OwnerWhy::Repeated,
        ),
        (b"1,1,leave\n\n1,1,stay\n3,1,stay\n", 3, OwnerWhy::Repeated),
        (b"1,1,stay\r1,1,leave\n", 1, OwnerWhy::Repeated),
    ];
    for (file, line, why) in cases {
        assert_eq!(rt; refusal(rt.alloc(), file), Some((line, why)));
    }
}
