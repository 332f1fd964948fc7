use super::*;
use search_base::checked_access::saturating_u32 as count_of;
use std::test::Fail;

// Three stations on two channels, no two of which may share one. The variables of the log are 1 and 2 of station 0, 3 and 4 of station 1, 5
// and 6 of station 2. The clauses are 1: 1 2, 2: 3 4, 3: 5 6, 4: -1 -2, 5: -3 -4, 6: -5 -6, 7: -1 -3, 8: -1 -5, 9: -2 -4, 10: -2 -6,
// 11: -3 -5, 12: -4 -6. The engine's variables are these less one, and its literals are even if positive.
const NOT_1: u32 = 1;

const IS_2: u32 = 2;

const IS_3: u32 = 4;

const IS_4: u32 = 6;

const NOT_4: u32 = 7;

// The literal of the selector of station 2.
const WITHOUT_STATION_2: u32 = 17;

// The literals and hints of each line. Line 1 has line 0 as a subset, and line 3 has clause 1.
const LINES: &[(&[u32], &[Hint])] = &[
    (
        &[NOT_1, WITHOUT_STATION_2],
        &[
            Hint::Pair { v: 0, w: 2 },
            Hint::Own(1),
            Hint::Pair { v: 0, w: 4 },
            Hint::Own(2),
            Hint::Pair { v: 3, w: 5 },
        ],
    ),
    (&[NOT_1, IS_4], &[Hint::Pair { v: 0, w: 2 }, Hint::Own(1)]),
    (
        &[NOT_4],
        &[Hint::Line(0), Hint::Line(1), Hint::Own(0), Hint::Pair { v: 1, w: 3 }],
    ),
    (&[IS_2, IS_3, 0], &[Hint::Own(0)]),
    (&[IS_2], &[Hint::Line(3), Hint::Line(1), Hint::Line(2)]),
];

// The same lines without the stale ones, as literals and as hints. In the third, line 1 was replaced by line 0, which is false at
// once. In the second it was left out, since line 0 forces nothing twice.
const FRESH: &[(&[i64], &[u64])] = &[
    (&[-1], &[7, 2, 8, 3, 12]),
    (&[-4], &[13, 1, 9]),
    (&[2], &[1, 13]),
];

fn engine_with_lines(alloc: Global) -> Result<Engine, NoMemory> {
    let mut engine = Engine::crowded(alloc, 3, 2)?;
    for place in [2, 0, 1] {
        engine.set.push(place)?;
    }
    let mut literals = Vec::new(alloc);
    for line in LINES {
        literals.clear();
        for code in line.0 {
            literals.push(Literal { code: *code })?;
        }
        let _number = engine.lines.add(&literals, line.1)?;
    }
    Ok(engine)
}

// Checks whether a line of a log has these literals and these hints.
fn is_line(alloc: Global, log: &Log, place: usize, literals: &[i64], hints: &[u64]) -> Result<bool, NoMemory> {
    let mut lits = Vec::new(alloc);
    log.lines.lits(place).read_into(&mut lits)?;
    let mut found = Vec::new(alloc);
    for lit in &lits {
        let var = lit.var as i64;
        found.push(if lit.positive { var } else { 0i64.saturating_sub(var) })?;
    }
    let mut named = Vec::new(alloc);
    let mut rest = log.lines.hints(place);
    while let Some(hint) = rest.next() {
        named.push(hint)?;
    }
    Ok(found.as_slice() == literals && named.as_slice() == hints)
}

#[test]
fn a_receipt_has_fresh_lines_alone(rt: HostRuntime) -> Result<(), Fail> {
    let alloc = rt.alloc();
    for count in 1..4 {
        let log = engine_with_lines(alloc)?.receipt(alloc, count)?.ok_or("no receipt")?;
        assert_eq!(rt; count_of(log.lines.len()), count);
        for (place, line) in FRESH.iter().enumerate().take(count as usize) {
            let is_same = is_line(alloc, &log, place, line.0, line.1)?;
            assert!(rt; is_same, "line {place} of {count}");
        }
    }
    Ok(())
}

#[test]
fn too_few_fresh_lines_are_no_receipt(rt: HostRuntime) -> Result<(), Fail> {
    let alloc = rt.alloc();
    let receipt = engine_with_lines(alloc)?.receipt(alloc, 4)?;
    assert!(rt; receipt.is_none());
    Ok(())
}

#[test]
fn lines_of_earlier_tests_come_only_where_they_are_needed(rt: HostRuntime) -> Result<(), Fail> {
    let alloc = rt.alloc();
    // The number of the first line of the test, and how many fresh lines it has with those that it needs. Line 4 needs all of them.
    for (first, fresh) in [(5, 0), (4, 3), (1, 3), (0, 3)] {
        for count in 1..5 {
            let mut engine = engine_with_lines(alloc)?;
            engine.first_line = first;
            let receipt = engine.receipt(alloc, count)?;
            assert_eq!(rt; receipt.is_some(), count <= fresh, "{count} lines from {first}");
        }
    }
    Ok(())
}
