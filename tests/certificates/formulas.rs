//! Tests of the packing formula and of the channel map of a model.

use clause_db::list::ClauseList;
use clause_db::lit::Lit;
use cnf_encode::count::clause_count;
use cnf_encode::decode::decode;
use cnf_encode::encode::encode;
use cnf_encode::numbering::var;
use pack_defs::book::Book;
use pack_defs::domain::Domain;
use pack_defs::items::Items;
use pack_defs::pair::Pair;
use std::alloc::{AllocError, Global};
use std::test::Fail;

// Returns a station with these channels.
fn on(alloc: Global, station: u32, channels: &[u8]) -> Result<Domain, AllocError> {
    let channels = Items::from_vec(Vec::from_slice(alloc, channels)?);
    Ok(Domain { station, channels })
}

fn pair(f: u32, a: u8, g: u32, b: u8) -> Pair {
    Pair { f, a, g, b }
}

// Returns a book of three stations on two channels; no two stations may share a channel.
fn three_stations(alloc: Global) -> Result<Book, AllocError> {
    let domains = [
        on(alloc, 1, &[14, 15])?,
        on(alloc, 2, &[14, 15])?,
        on(alloc, 3, &[14, 15])?,
    ];
    let pairs = [
        pair(1, 14, 2, 14),
        pair(1, 14, 3, 14),
        pair(1, 15, 2, 15),
        pair(1, 15, 3, 15),
        pair(2, 14, 3, 14),
        pair(2, 15, 3, 15),
    ];
    Book::build(alloc, 15, &[1, 2, 3], &domains, &pairs)
}

// Returns a literal as in DIMACS CNF: its variable, negative for a negated one.
fn number_of(lit: Lit) -> i64 {
    let var = i64::try_from(lit.var).unwrap_or(0);
    if lit.positive {
        var
    } else {
        var.wrapping_neg()
    }
}

// Returns the clauses as in DIMACS CNF: the literals of each, and a 0.
fn numbers_of(alloc: Global, formula: &ClauseList) -> Result<Vec<i64>, AllocError> {
    let mut numbers = Vec::new(alloc);
    for i in 0..formula.len() {
        for lit in formula.get(i + 1) {
            numbers.push(number_of(*lit))?;
        }
        numbers.push(0)?;
    }
    Ok(numbers)
}

#[test]
fn formula_of_three_stations(rt: HostRuntime) -> Result<(), Fail> {
    let alloc = rt.alloc();
    let formula = encode(alloc, &three_stations(alloc)?, &[1, 2, 3])?;
    assert_eq!(rt; formula.vars(), 6);
    assert_eq!(rt; formula.len(), 12);
    let clauses = [
        1, 2, 0, 3, 4, 0, 5, 6, 0, -1, -2, 0, -3, -4, 0, -5, -6, 0, -1, -3, 0, -1, -5, 0, -2, -4,
        0, -2, -6, 0, -3, -5, 0, -4, -6, 0,
    ];
    assert_eq!(rt; numbers_of(alloc, &formula)?.as_slice(), clauses.as_slice());
    Ok(())
}

#[test]
fn variable_of_each_choice(rt: HostRuntime) -> Result<(), Fail> {
    let book = three_stations(rt.alloc())?;
    let set = [1, 2, 3];
    let choices = [
        (1, 14, 1),
        (1, 15, 2),
        (2, 14, 3),
        (2, 15, 4),
        (3, 14, 5),
        (3, 15, 6),
    ];
    for (s, c, variable) in choices {
        assert!(rt; set.contains(&s));
        assert!(rt; book.domain(s).contains(&c));
        assert_eq!(rt; var(&book, &set, s, c), variable);
    }
    Ok(())
}

#[test]
fn map_of_a_model(rt: HostRuntime) -> Result<(), Fail> {
    let alloc = rt.alloc();
    let book = three_stations(alloc)?;
    let map = decode(alloc, &book, &[1, 2], &[true, false, false, true])?;
    assert_eq!(rt; map.entries(), [(1, 14), (2, 15)].as_slice());
    Ok(())
}

#[test]
fn variable_past_the_model_is_false(rt: HostRuntime) -> Result<(), Fail> {
    let alloc = rt.alloc();
    let book = three_stations(alloc)?;
    let map = decode(alloc, &book, &[1, 2], &[false, true, true])?;
    assert_eq!(rt; map.entries(), [(1, 15), (2, 14)].as_slice());
    Ok(())
}

#[test]
fn pairs_to_another_station_are_left_out(rt: HostRuntime) -> Result<(), Fail> {
    let alloc = rt.alloc();
    let formula = encode(alloc, &three_stations(alloc)?, &[1, 3])?;
    assert_eq!(rt; formula.vars(), 4);
    let clauses = [1, 2, 0, 3, 4, 0, -1, -2, 0, -3, -4, 0, -1, -3, 0, -2, -4, 0];
    assert_eq!(rt; numbers_of(alloc, &formula)?.as_slice(), clauses.as_slice());
    Ok(())
}

// Returns a book of five stations with different domains, and pairs across channels. Station 3 has no channel.
fn five_stations(alloc: Global) -> Result<Book, AllocError> {
    let domains = [
        on(alloc, 1, &[14])?,
        on(alloc, 2, &[14, 15, 20])?,
        on(alloc, 3, &[])?,
        on(alloc, 4, &[15, 20])?,
        on(alloc, 5, &[14, 20])?,
    ];
    let pairs = [
        pair(1, 14, 2, 14),
        pair(1, 14, 4, 15),
        pair(2, 14, 4, 15),
        pair(2, 20, 4, 15),
        pair(2, 20, 5, 20),
        pair(4, 20, 5, 20),
    ];
    Book::build(alloc, 30, &[1, 2, 3, 4, 5], &domains, &pairs)
}

#[test]
fn set_in_the_middle_of_a_book(rt: HostRuntime) -> Result<(), Fail> {
    let alloc = rt.alloc();
    let formula = encode(alloc, &five_stations(alloc)?, &[2, 4])?;
    assert_eq!(rt; formula.vars(), 5);
    let clauses = [
        1, 2, 3, 0, 4, 5, 0, -1, -2, 0, -1, -3, 0, -2, -3, 0, -4, -5, 0, -1, -4, 0, -3, -4, 0,
    ];
    assert_eq!(rt; numbers_of(alloc, &formula)?.as_slice(), clauses.as_slice());
    Ok(())
}

#[test]
fn station_without_a_channel(rt: HostRuntime) -> Result<(), Fail> {
    let alloc = rt.alloc();
    let formula = encode(alloc, &five_stations(alloc)?, &[1, 3, 5])?;
    assert_eq!(rt; formula.vars(), 3);
    let clauses = [1, 0, 0, 2, 3, 0, -2, -3, 0];
    assert_eq!(rt; numbers_of(alloc, &formula)?.as_slice(), clauses.as_slice());
    Ok(())
}

// Sets of the five stations and of station 9, which is not in the book, and how many clauses their formulas have.
const COUNTED: &[(&[u32], u64)] = &[
    (&[], 0),
    (&[3], 1),
    (&[9], 1),
    (&[2, 4], 8),
    (&[1, 3, 5], 4),
    (&[1, 2, 4], 11),
];

#[test]
fn clauses_counted_without_making_them(rt: HostRuntime) -> Result<(), Fail> {
    let book = five_stations(rt.alloc())?;
    for (set, count) in COUNTED {
        assert_eq!(rt; clause_count(&book, set), *count);
    }
    Ok(())
}
