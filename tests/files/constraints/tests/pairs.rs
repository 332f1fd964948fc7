//! Texts of the row file that are accepted or rejected.

use crate::files::constraints::tests::{LENGTHS, THREE_STATIONS, fed_pairs, first_pairs};
use constraint_files::domains::{Domains, read_domains};
use constraint_files::error::{ReadErr, RowWhy};
use constraint_files::pairs::read_pairs;
use std::alloc::Global;
use std::test::Fail;

#[test]
fn rows_that_are_read(rt: HostRuntime) -> Result<(), Fail> {
    let file = b"DOMAIN,1,14,15,16\nDOMAIN,2,14,15,16\nDOMAIN,3,14\n";
    const CASES: &[(&[u8], &str, u64, u64)] = &[
        (b"", "", 0, 0),
        (b"CO,14,14,1\n", "", 0, 0),
        (b"CO,14,14,1,1,2\n", "1 on 14, 2 on 14;", 1, 0),
        (b"CO,14,14,1,9\n", "", 0, 1),
        (b"CO,14,14,9,1,9,9,8\n", "", 2, 2),
        (b"CO,15,15,1,2,3\n", "1 on 15, 2 on 15;", 0, 0),
        (b"CO,2,2,1,2,2,1,9\nCO,51,51,1,2\n", "", 1, 1),
        (b"CO,14,14,3,1", "1 on 14, 3 on 14;", 0, 0),
        (b"CO,14,14,1,2,2\nCO,14,14,2,1\n", "1 on 14, 2 on 14;", 0, 0),
        (
            b"CO,14,14,1,2\r\nCO,015,15,2,1\r\n",
            "1 on 14, 2 on 14;1 on 15, 2 on 15;",
            0,
            0,
        ),
        (
            b"\nCO,14,14,2,3\rCO,14,14,1,3\n",
            "1 on 14, 3 on 14;2 on 14, 3 on 14;",
            0,
            0,
        ),
        (b"ADJ+1,14,15,1,2\n", "1 on 14, 2 on 15;", 0, 0),
        (b"ADJ-1,15,14,1,2\n", "1 on 15, 2 on 14;", 0, 0),
        (b"ADJ+2,14,16,1,2\n", "1 on 14, 2 on 16;", 0, 0),
        (b"ADJ-2,16,14,1,2\n", "1 on 16, 2 on 14;", 0, 0),
        (
            b"ADJ+1,14,15,2,1\nADJ-1,15,14,1,2\n",
            "1 on 15, 2 on 14;",
            0,
            0,
        ),
        (b"ADJ+1,14,15,1,2,3\n", "1 on 14, 2 on 15;", 0, 0),
        (b"ADJ-1,15,14,1,3\n", "1 on 15, 3 on 14;", 0, 0),
        (b"ADJ+1,13,14,1,2\nADJ-1,14,13,1,2\n", "", 0, 0),
        (b"ADJ+2,49,51,1,2\nADJ-2,4,2,1,2\n", "", 0, 0),
        (b" CO ,\t14,14 , 1,2,,\n", "1 on 14, 2 on 14;", 0, 0),
        (b",,\n \nCO,14,14,1,2\n", "1 on 14, 2 on 14;", 0, 0),
        (b"CO,14,14,1, ,\n", "", 0, 0),
        (b"\"CO\",\"14\",14,1,2\n", "1 on 14, 2 on 14;", 0, 0),
        (
            b"CO,14,14,1,\"2\nCO,15,15,1,2\n",
            "1 on 14, 2 on 14;1 on 15, 2 on 15;",
            0,
            0,
        ),
        (b"ADJ+1,14,15,1,1\n", "", 1, 0),
        (b"ADJ+1,14,15,9,9,1\n", "", 1, 1),
        (
            b"CO,14,14,1,999,2,\nCO,14,14,1,2\nCO,7,7,1,2\nCO,15,15,1,1\n",
            "1 on 14, 2 on 14;",
            1,
            1,
        ),
    ];
    assert_eq!(rt; first_pairs(rt.alloc(), file, CASES)?, None);
    Ok(())
}

// Checks whether the text's pairs over these domains are rejected with this error, at once and in pieces.
fn is_refused(alloc: Global, domains: &Domains, text: &[u8], want: ReadErr) -> bool {
    for length in LENGTHS {
        if fed_pairs(alloc, domains, text, *length).err() != Some(want) {
            return false;
        }
    }
    read_pairs(alloc, text, domains).err() == Some(want)
}

// Returns the index of the first text that is not rejected for this row and cause, over the three stations.
fn first_read_pairs(alloc: Global, cases: &[(&[u8], u64, RowWhy)]) -> Option<usize> {
    let Ok(domains) = read_domains(alloc, THREE_STATIONS) else {
        return Some(0);
    };
    for (i, (text, line, why)) in cases.iter().enumerate() {
        let want = ReadErr::Row {
            line: *line,
            why: *why,
        };
        if !is_refused(alloc, &domains, text, want) {
            return Some(i);
        }
    }
    None
}

#[test]
fn rows_that_are_refused(rt: HostRuntime) {
    const CASES: &[(&[u8], u64, RowWhy)] = &[
        (b"CO", 1, RowWhy::ShortRow),
        (b"CO,14,14\n", 1, RowWhy::ShortRow),
        (b"CO,14,14,,\n", 1, RowWhy::ShortRow),
        (b"x,y,z\n", 1, RowWhy::ShortRow),
        (b"CO,14,14,1,2\nCO,14,14\n", 2, RowWhy::ShortRow),
        (b"DOMAIN,1,14,15\n", 1, RowWhy::BadKey),
        (b"co,14,14,1\n", 1, RowWhy::BadKey),
        (b"ADJ+3,14,17,1\n", 1, RowWhy::BadKey),
        (b"ADJ1,14,15,1\n", 1, RowWhy::BadKey),
        (b"ADJ+1 x,14,15,1\n", 1, RowWhy::BadKey),
        (b"ADJ,x,52,1\n", 1, RowWhy::BadKey),
        (b"CO,14,14,1,x\n", 1, RowWhy::BadNumber),
        (b"CO,14,14,1,4294967296\n", 1, RowWhy::BadNumber),
        (b"CO,14,14,,2\n", 1, RowWhy::BadNumber),
        (b"CO,14,14,1,,2\n", 1, RowWhy::BadNumber),
        (b"CO,52,1,1,x\n", 1, RowWhy::BadNumber),
        (b"CO,14,-14,1\n", 1, RowWhy::BadNumber),
        (b"CO,1,1,1,2\n", 1, RowWhy::ChannelRange),
        (b"CO,52,52,1,2\n", 1, RowWhy::ChannelRange),
        (b"CO,14,52,1,2\n", 1, RowWhy::ChannelRange),
        (b"CO,1,14,1,2\n", 1, RowWhy::ChannelRange),
        (b"ADJ+1,51,52,1,2\n", 1, RowWhy::ChannelRange),
        (b"ADJ-2,3,1,1,2\n", 1, RowWhy::ChannelRange),
        (b"CO,14,15,1,2\n", 1, RowWhy::BadOffset),
        (b"ADJ+1,14,14,1,2\n", 1, RowWhy::BadOffset),
        (b"ADJ+1,15,14,1,2\n", 1, RowWhy::BadOffset),
        (b"ADJ-1,14,15,1,2\n", 1, RowWhy::BadOffset),
        (b"ADJ-1,16,14,1,2\n", 1, RowWhy::BadOffset),
        (b"ADJ+2,14,15,1,2\n", 1, RowWhy::BadOffset),
        (b"ADJ+2,16,14,1,2\n", 1, RowWhy::BadOffset),
        (b"ADJ-2,14,16,1,2\n", 1, RowWhy::BadOffset),
        (b"ADJ-2,16,17,1\n", 1, RowWhy::BadOffset),
        (
            b"\nCO,14,14,1,2\r\n,\nCO,14,14,1,2\rCO,14,15,1\n",
            4,
            RowWhy::BadOffset,
        ),
        (b"CO,14,15,1\nCO\n", 1, RowWhy::BadOffset),
        (b"\x8A\x2C\xFE\x0A\x00,\"\x0D\x91,5", 1, RowWhy::ShortRow),
    ];
    assert_eq!(rt; first_read_pairs(rt.alloc(), CASES), None);
}
