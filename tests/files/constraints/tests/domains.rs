//! Texts of the domain file that are accepted or rejected.

use crate::files::constraints::tests::{LENGTHS, fed_domains, first_domains};
use constraint_files::domains::{DomainReader, read_domains};
use constraint_files::error::{ReadErr, RowWhy};
use std::alloc::Global;
use std::test::Fail;

#[test]
fn domains_that_are_read(rt: HostRuntime) -> Result<(), Fail> {
    const CASES: &[(&[u8], &str)] = &[
        (b"", ""),
        (b"DOMAIN,1\n", "1;"),
        (b"DOMAIN,2,7,14,14,15", "2 14 15;"),
        (b"DOMAIN,3,51,2,14\nDOMAIN,1,37\n", "1 37;3 14 51;"),
        (b"DOMAIN,1,13,14\r\n", "1 14;"),
        (b"\n\nDOMAIN,1,14\n\n", "1 14;"),
        (b"DOMAIN,0,14\nDOMAIN,4294967295,14", "0 14;4294967295 14;"),
        (b"DOMAIN,007,000000000000000000000000000014\n", "7 14;"),
        (b"\"DOMAIN\",\"1\",14\n", "1 14;"),
        (b"DOMAIN,1,14\rDOMAIN,2,15\n", "1 14;2 15;"),
        (
            b"\xEF\xBB\xBFDOMAIN,1,14\n\xEF\xBB\xBFDOMAIN,2,15\n",
            "1 14;2 15;",
        ),
        (b"DOMAIN,1,\"14\nDOMAIN,2,15\n", "1 14;2 15;"),
        (
            b" DOMAIN, 1 ,14,15,,\nDOMAIN,2,7,14,14,15\n\n",
            "1 14 15;2 14 15;",
        ),
        (b"\tDOMAIN\t,1 ,\t14 \t, 15\n", "1 14 15;"),
        (b"DOMAIN,1,,\n", "1;"),
        (b"DOMAIN,1,14, ,\t,\"\"\n", "1 14;"),
        (b",\n \n\t,,\n\"\"\nDOMAIN,1,14\n", "1 14;"),
        (b"DOMAIN,1,\" 14 \"\n", "1 14;"),
        (b"DOMAIN,1,\"1\"4\n", "1 14;"),
    ];
    assert_eq!(rt; first_domains(rt.alloc(), CASES)?, None);
    Ok(())
}

// Checks whether the text's domains are rejected with this error, at once and in pieces.
fn is_refused(alloc: Global, text: &[u8], want: ReadErr) -> bool {
    for length in LENGTHS {
        if fed_domains(alloc, text, *length).err() != Some(want) {
            return false;
        }
    }
    read_domains(alloc, text).err() == Some(want)
}

// Returns the index of the first text that is not rejected for this row and cause.
fn first_read(alloc: Global, cases: &[(&[u8], u64, RowWhy)]) -> Option<usize> {
    for (i, (text, line, why)) in cases.iter().enumerate() {
        let want = ReadErr::Row {
            line: *line,
            why: *why,
        };
        if !is_refused(alloc, text, want) {
            return Some(i);
        }
    }
    None
}

#[test]
fn domains_that_are_refused(rt: HostRuntime) {
    const CASES: &[(&[u8], u64, RowWhy)] = &[
        (b"DOMAIN", 1, RowWhy::ShortRow),
        (b"DOMAIN,,\n", 1, RowWhy::ShortRow),
        (b"CO\n", 1, RowWhy::ShortRow),
        (b"\n\nDOMAIN\n", 3, RowWhy::ShortRow),
        (b"domain,1,14\n", 1, RowWhy::BadKey),
        (b"DOMAIN 1,14\n", 1, RowWhy::BadKey),
        (b",1,14\n", 1, RowWhy::BadKey),
        (b"CO,x,14,1,2\n", 1, RowWhy::BadKey),
        (b"DOMAIN,one,14\n", 1, RowWhy::BadNumber),
        (b"DOMAIN,,14\n", 1, RowWhy::BadNumber),
        (b"DOMAIN,1,,14\n", 1, RowWhy::BadNumber),
        (b"DOMAIN,1,+14\n", 1, RowWhy::BadNumber),
        (b"DOMAIN,1, \"14\"\n", 1, RowWhy::BadNumber),
        (b"DOMAIN,4294967296,14\n", 1, RowWhy::BadNumber),
        (b"DOMAIN,1,52,x\n", 1, RowWhy::BadNumber),
        (b"DOMAIN,1,14\nDOMAIN,1,x\n", 2, RowWhy::BadNumber),
        (b"DOMAIN,1,1\n", 1, RowWhy::ChannelRange),
        (b"DOMAIN,1,52\n", 1, RowWhy::ChannelRange),
        (b"DOMAIN,1,14,0\n", 1, RowWhy::ChannelRange),
        (b"DOMAIN,1,4294967295\n", 1, RowWhy::ChannelRange),
        (b"DOMAIN,1,14\nDOMAIN,1,14,1\n", 2, RowWhy::ChannelRange),
        (b"DOMAIN,1,14\nDOMAIN,1,15\n", 2, RowWhy::SecondDomain),
        (b"DOMAIN,1,14\nDOMAIN,01\n", 2, RowWhy::SecondDomain),
        (b"DOMAIN,1,14\rDOMAIN,1,15\n", 1, RowWhy::SecondDomain),
        (
            b"DOMAIN,1,14\r\n\r\nDOMAIN,1,15\r\n",
            3,
            RowWhy::SecondDomain,
        ),
        (b"DOMAIN,1,x\nDOMAIN\n", 1, RowWhy::BadNumber),
        (b"\"DOMAIN,1\nDOMAIN,1,14\n", 1, RowWhy::ShortRow),
        (b"DOMAIN,1,14\rDOMAIN\nx,y\n", 1, RowWhy::ShortRow),
        (
            b"\xF3\x00\x9C\"\x0A\x2C\xFF\x81,,\x0D\x7F",
            1,
            RowWhy::ShortRow,
        ),
    ];
    assert_eq!(rt; first_read(rt.alloc(), CASES), None);
}

// Returns the index of the first rejected piece, and the error. The end of the file counts as one more piece.
fn refused_piece(alloc: Global, pieces: &[&[u8]]) -> Option<(usize, ReadErr)> {
    let Ok(mut reader) = DomainReader::make(alloc) else {
        return None;
    };
    for (i, piece) in pieces.iter().enumerate() {
        match reader.feed(piece) {
            Ok(next) => reader = next,
            Err(why) => return Some((i, why)),
        }
    }
    let why = reader.finish().err()?;
    Some((pieces.len(), why))
}

// Returns the index of the first row whose pieces have another outcome than the expected piece, line and cause.
fn first_pieces(
    alloc: Global,
    cases: &[(&[&[u8]], Option<(usize, u64, RowWhy)>)],
) -> Option<usize> {
    for (i, (pieces, want)) in cases.iter().enumerate() {
        let want = want.map(|(place, line, why)| (place, ReadErr::Row { line, why }));
        if refused_piece(alloc, pieces) != want {
            return Some(i);
        }
    }
    None
}

#[test]
fn pieces_that_are_refused(rt: HostRuntime) {
    const CASES: &[(&[&[u8]], Option<(usize, u64, RowWhy)>)] = &[
        (
            &[b"DOMAIN,1,1", b"4", b"x\n"],
            Some((2, 1, RowWhy::BadNumber)),
        ),
        (
            &[b"DOMAIN,1,1", b"4", b"x"],
            Some((3, 1, RowWhy::BadNumber)),
        ),
        (&[b"DOMAIN,1,1", b"4", b""], None),
        (
            &[b"DOMAIN,1,14\nDOMAIN", b"\n"],
            Some((1, 2, RowWhy::ShortRow)),
        ),
        (
            &[b"DOMAIN\nDOMAIN,1,x\n", b"\n"],
            Some((0, 1, RowWhy::ShortRow)),
        ),
        (&[b"\n", b"\n", b"x\n"], Some((2, 3, RowWhy::ShortRow))),
        (&[b"\"DOMAIN\",\"1", b"\",14\n"], None),
        (
            &[b"\"DOMAIN,", b"1\nDOMAIN,1,14\n"],
            Some((1, 1, RowWhy::ShortRow)),
        ),
        (
            &[b"DOMAIN,1,14\r", b"\nDOMAIN,1\n"],
            Some((1, 2, RowWhy::SecondDomain)),
        ),
        (
            &[b"DOMAIN,1,14\r", b"DOMAIN,1\n"],
            Some((1, 1, RowWhy::SecondDomain)),
        ),
        (
            &[b"DOMAIN,1", b"\n", b"DOMAIN,1"],
            Some((3, 2, RowWhy::SecondDomain)),
        ),
        (&[b"\xEF\xBB", b"\xBFDOMAIN,1,1", b"4\n"], None),
    ];
    assert_eq!(rt; first_pieces(rt.alloc(), CASES), None);
}
