//! The book that joins a scenario with its two files.

use crate::files::scenarios::tests::TEXT;
use constraint_files::domains::read_domains;
use constraint_files::pairs::read_pairs;
use pack_defs::book::Book;
use pack_defs::pair::Pair;
use scenario_json::join::{JoinErr, join};
use scenario_json::scenario::read_scenario;
use std::alloc::Global;

// Joins the text with these two files. Returns `None` if one of the three is rejected.
fn joined(alloc: Global, domains: &[u8], rows: &[u8]) -> Option<Result<Book, JoinErr>> {
    let Ok(scenario) = read_scenario(alloc, TEXT.as_bytes()) else {
        return None;
    };
    let Ok(domains) = read_domains(alloc, domains) else {
        return None;
    };
    let Ok(pairs) = read_pairs(alloc, rows, &domains) else {
        return None;
    };
    Some(join(alloc, &scenario, &domains, &pairs))
}

// Checks whether the book has exactly stations 1 to 3, their channels up to the top one, and this one pair.
fn is_cut(book: &Book, only: Pair) -> bool {
    if book.len() != 3 || book.top() != 15 {
        return false;
    }
    book.facility(0) == 1
        && book.facility(2) == 3
        && book.domain(1) == [14, 15].as_slice()
        && book.domain(3) == [14].as_slice()
        && book.pairs() == [only].as_slice()
}

// Checks whether the two files join to the book that `is_cut` describes.
fn cuts(alloc: Global, domains: &[u8], rows: &[u8], only: Pair) -> bool {
    match joined(alloc, domains, rows) {
        Some(Ok(book)) => is_cut(&book, only),
        _ => false,
    }
}

#[test]
fn cuts_the_files_to_the_scenario(rt: HostRuntime) {
    let domains = b"DOMAIN,1,14,15,16\nDOMAIN,2,14,15,16\nDOMAIN,3,14\nDOMAIN,4,14\n";
    let rows = b"CO,14,14,1,2,4\nCO,16,16,1,2\n";
    let only = Pair {
        f: 1,
        a: 14,
        g: 2,
        b: 14,
    };
    assert!(rt; cuts(rt.alloc(), domains, rows, only));
}

// Checks whether the join fails because this station has no domain.
fn is_missing(alloc: Global, domains: &[u8], station: u32) -> bool {
    match joined(alloc, domains, b"") {
        Some(Err(why)) => why == JoinErr::MissingDomain(station),
        _ => false,
    }
}

// Returns the file of the first row with another outcome.
fn first_otherwise<'a>(alloc: Global, rows: &[(&'a str, u32)]) -> Option<&'a str> {
    for (file, station) in rows {
        if !is_missing(alloc, file.as_bytes(), *station) {
            return Some(file);
        }
    }
    None
}

#[test]
fn names_the_least_station_without_a_domain(rt: HostRuntime) {
    const ROWS: &[(&str, u32)] = &[
        ("", 1),
        ("DOMAIN,1,14\nDOMAIN,4,14\n", 2),
        ("DOMAIN,2,14\nDOMAIN,1,14\n", 3),
        ("DOMAIN,3\n", 1),
    ];
    assert_eq!(rt; first_otherwise(rt.alloc(), ROWS), None);
}
