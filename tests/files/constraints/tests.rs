//! Reading the domain file and the row file: accepted texts and rejected texts.

mod domains;
mod pairs;

use constraint_files::domains::{DomainReader, Domains, read_domains};
use constraint_files::error::ReadErr;
use constraint_files::field::number;
use constraint_files::pairs::{PairReader, Pairs, read_pairs};
use constraint_files::records::fields;
use std::alloc::{AllocError, Global};
use std::test::Fail;

const THREE_STATIONS: &[u8] = b"DOMAIN,1,14,15\nDOMAIN,2,14,15\nDOMAIN,3,14,15\n";

// Returns the stations with their channels, as `1 14 15;2;`.
fn domains_shown(alloc: Global, domains: &Domains) -> Result<String, AllocError> {
    let mut shown = String::new(alloc);
    for domain in domains.list() {
        shown.push_str(format!(in alloc; "{}", domain.station)?.as_str())?;
        for channel in domain.channels.as_slice() {
            shown.push_str(format!(in alloc; " {channel}")?.as_str())?;
        }
        shown.push(';')?;
    }
    Ok(shown)
}

// Returns the pairs, as `1 on 14, 2 on 15;`.
fn pairs_shown(alloc: Global, pairs: &Pairs) -> Result<String, AllocError> {
    let mut shown = String::new(alloc);
    for pair in pairs.list() {
        let text = format!(in alloc; "{} on {}, {} on {};", pair.f, pair.a, pair.g, pair.b)?;
        shown.push_str(text.as_str())?;
    }
    Ok(shown)
}

// Appends a field in brackets.
fn push_field(shown: &mut String, field: &[u8]) -> Result<(), AllocError> {
    shown.push('[')?;
    for byte in field {
        shown.push(char::from(*byte))?;
    }
    shown.push(']')
}

// Appends the fields of a record, and a semicolon.
fn push_record(shown: &mut String, record: &[Vec<u8>]) -> Result<(), AllocError> {
    for field in record {
        push_field(shown, field)?;
    }
    shown.push(';')
}

// Returns the fields of a line's records, each field in brackets, as `[CO][14];[CO];`.
fn fields_shown(alloc: Global, line: &[u8]) -> Result<String, AllocError> {
    let mut shown = String::new(alloc);
    for record in &fields(alloc, line)? {
        push_record(&mut shown, record)?;
    }
    Ok(shown)
}

// Returns the index of the first field that is read as another number.
fn first_number(cases: &[(&[u8], Option<u32>)]) -> Option<usize> {
    cases
        .iter()
        .position(|(field, want)| number(field) != *want)
}

#[test]
fn numbers(rt: HostRuntime) {
    const CASES: &[(&[u8], Option<u32>)] = &[
        (b"0", Some(0)),
        (b"7", Some(7)),
        (b"4294967295", Some(4_294_967_295)),
        (b"4294967296", None),
        (b"00000000000004294967295", Some(4_294_967_295)),
        (b"000", Some(0)),
        (b"99999999999999999999999999", None),
        (b"", None),
        (b"+1", None),
        (b"-1", None),
        (b"1.0", None),
        (b"1 2", None),
        (b"0x10", None),
        (b"\xD9\xA1", None),
    ];
    assert_eq!(rt; first_number(CASES), None);
}

// Returns the expected text of the first line whose fields differ from it.
fn first_fields<'a>(
    alloc: Global,
    cases: &[(&[u8], &'a str)],
) -> Result<Option<&'a str>, AllocError> {
    for (line, want) in cases {
        if fields_shown(alloc, line)?.as_str() != *want {
            return Ok(Some(want));
        }
    }
    Ok(None)
}

#[test]
fn fields_of_a_line(rt: HostRuntime) -> Result<(), Fail> {
    const CASES: &[(&[u8], &str)] = &[
        (b"", ""),
        (b"CO,14,14,1,2", "[CO][14][14][1][2];"),
        (b" CO ,\t14\t, 14,1\t ,2 ", "[CO][14][14][1][2];"),
        (b"a b,\tc\td ", "[a b][c\td];"),
        (b"CO,14,,", "[CO][14];"),
        (b"CO,,14", "[CO][][14];"),
        (b"CO, ,\t,14, ,", "[CO][][][14];"),
        (b",CO", "[][CO];"),
        (b",,", ""),
        (b" , \t", ""),
        (b"\"\"", ""),
        (b"\" \",\"\t\"", ""),
        (b"\"1\",\" 2 \"", "[1][2];"),
        (b" \"1\"", "[\"1\"];"),
        (b"\"1\"4", "[14];"),
        (b"\"1,2\",3", "[1,2][3];"),
        (b"\"a\"\"b\"", "[a\"b];"),
        (b"a\"b", "[a\"b];"),
        (b"1,\"2,3", "[1][2,3];"),
        (b"1,2\r", "[1][2];"),
        (b"1,2\r3,4", "[1][2];[3][4];"),
        (b"\r\r,\r 5 ,\r", "[5];"),
        (b"\"1\r2\",3", "[1\r2][3];"),
        (b"\xEF\xBB\xBF1,2", "[1][2];"),
        (b"\x0B1,\xC2\xA02", "[\x0B1][\u{C2}\u{A0}2];"),
    ];
    assert_eq!(rt; first_fields(rt.alloc(), CASES)?, None);
    Ok(())
}

// The lengths of the parts in which each text is fed, besides the complete text.
const LENGTHS: &[usize] = &[1, 2, 5, 16, 1000];

// Returns the next pseudorandom number (Knuth's multiplier).
fn next(chance: u64) -> u64 {
    chance
        .wrapping_mul(6_364_136_223_846_793_005)
        .wrapping_add(1_442_695_040_888_963_407)
}

// Returns a pseudorandom place below `length`, or 0 if `length` is 0.
fn place(chance: u64, length: usize) -> usize {
    if length == 0 {
        return 0;
    }
    (chance >> 33) as usize % length
}

// Reads the domains of a text in parts of this length. Each part is cut into two pieces at a pseudorandom place; the first piece may be
// empty.
fn fed_domains(alloc: Global, text: &[u8], length: usize) -> Result<Domains, ReadErr> {
    let mut reader = DomainReader::make(alloc)?;
    let mut chance = length as u64;
    for part in text.chunks(length.max(1)) {
        chance = next(chance);
        let (first, second) = part.split_at(place(chance, part.len()));
        reader = reader.feed(first)?.feed(second)?;
    }
    reader.finish()
}

// Reads the pairs of a text over these domains, in the same parts and pieces.
fn fed_pairs(
    alloc: Global,
    domains: &Domains,
    text: &[u8],
    length: usize,
) -> Result<Pairs, ReadErr> {
    let mut reader = PairReader::make(alloc, domains)?;
    let mut chance = length as u64;
    for part in text.chunks(length.max(1)) {
        chance = next(chance);
        let (first, second) = part.split_at(place(chance, part.len()));
        reader = reader.feed(first)?.feed(second)?;
    }
    reader.finish()
}

// Checks whether the domains were read and have this text.
fn are_shown(
    alloc: Global,
    domains: Result<Domains, ReadErr>,
    want: &str,
) -> Result<bool, AllocError> {
    let Ok(domains) = domains else {
        return Ok(false);
    };
    Ok(domains_shown(alloc, &domains)?.as_str() == want)
}

// Checks whether the domains of the text have this text, read at once and in pieces.
fn domains_are(alloc: Global, text: &[u8], want: &str) -> Result<bool, AllocError> {
    for length in LENGTHS {
        if !are_shown(alloc, fed_domains(alloc, text, *length), want)? {
            return Ok(false);
        }
    }
    are_shown(alloc, read_domains(alloc, text), want)
}

// Returns the index of the first text whose domains are others.
fn first_domains(alloc: Global, cases: &[(&[u8], &str)]) -> Result<Option<usize>, AllocError> {
    for (i, (text, want)) in cases.iter().enumerate() {
        if !domains_are(alloc, text, want)? {
            return Ok(Some(i));
        }
    }
    Ok(None)
}

// Checks whether the pairs were read and have this text and these counts.
fn pairs_are(
    alloc: Global,
    pairs: Result<Pairs, ReadErr>,
    want: &str,
    self_pairs: u64,
    strangers: u64,
) -> Result<bool, AllocError> {
    let Ok(pairs) = pairs else {
        return Ok(false);
    };
    if pairs.self_pairs() != self_pairs || pairs.strangers() != strangers {
        return Ok(false);
    }
    Ok(pairs_shown(alloc, &pairs)?.as_str() == want)
}

// Checks the same for a text, read at once and in pieces.
fn pairs_are_always(
    alloc: Global,
    domains: &Domains,
    text: &[u8],
    want: &str,
    self_pairs: u64,
    strangers: u64,
) -> Result<bool, AllocError> {
    for length in LENGTHS {
        let pairs = fed_pairs(alloc, domains, text, *length);
        if !pairs_are(alloc, pairs, want, self_pairs, strangers)? {
            return Ok(false);
        }
    }
    let pairs = read_pairs(alloc, text, domains);
    pairs_are(alloc, pairs, want, self_pairs, strangers)
}

// Returns the index of the first text whose pairs over these domains are others.
fn first_pairs(
    alloc: Global,
    file: &[u8],
    cases: &[(&[u8], &str, u64, u64)],
) -> Result<Option<usize>, AllocError> {
    let Ok(domains) = read_domains(alloc, file) else {
        return Ok(Some(0));
    };
    for (i, (text, want, self_pairs, strangers)) in cases.iter().enumerate() {
        if !pairs_are_always(alloc, &domains, text, want, *self_pairs, *strangers)? {
            return Ok(Some(i));
        }
    }
    Ok(None)
}

// Checks whether station 2 of the text has the channels 14 and 15, and station 4 no domain.
fn has_second(alloc: Global, text: &[u8]) -> bool {
    match read_domains(alloc, text) {
        Ok(domains) => {
            domains.domain(2) == Some([14, 15].as_slice()) && domains.domain(4) == None
        }
        Err(_) => false,
    }
}

// Returns the first part length from 1 to 45 for which the three stations are not read.
fn first_length(alloc: Global, want: &str) -> Result<Option<usize>, AllocError> {
    for length in 1..=45 {
        if !are_shown(alloc, fed_domains(alloc, THREE_STATIONS, length), want)? {
            return Ok(Some(length));
        }
    }
    Ok(None)
}

#[test]
fn three_stations(rt: HostRuntime) -> Result<(), Fail> {
    let shown = "1 14 15;2 14 15;3 14 15;";
    assert!(rt; domains_are(rt.alloc(), THREE_STATIONS, shown)?);
    assert!(rt; has_second(rt.alloc(), THREE_STATIONS));
    assert_eq!(rt; first_length(rt.alloc(), shown)?, None);
    const CASES: &[(&[u8], &str, u64, u64)] = &[(
        b"CO,14,14,1,2,3\nCO,14,14,2,3\nCO,15,15,1,2,3\nCO,15,15,2,3\n",
        "1 on 14, 2 on 14;1 on 14, 3 on 14;1 on 15, 2 on 15;1 on 15, 3 on 15;2 on 14, 3 on 14;2 on 15, 3 on 15;",
        0,
        0,
    )];
    assert_eq!(rt; first_pairs(rt.alloc(), THREE_STATIONS, CASES)?, None);
    Ok(())
}
