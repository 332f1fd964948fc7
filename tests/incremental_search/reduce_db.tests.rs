use super::*;
use crate::hint::Reason;
use local_search::local_search::NOWHERE;
use search_base::checked_access::saturating_u32;
use std::test::Fail;

// For each line: the codes of its literals, its levels, its use, and the literals that remain. Six lines may be dropped, and the three
// least used of them are. Lines of few levels or two literals stay. Variable 23 is true and satisfies a line. Variable 24 says that station
// 0 is in the set, and station 0 is on air.
const LINES: &[(&[u32], u32, f64, &[u32])] = &[
    (&[8, 11, 12], 5, 4.0, &[8, 11, 12]),
    (&[9, 12, 15, 16], 6, 1.0, &[]),
    (&[10, 13, 16], 4, 0.5, &[10, 13, 16]),
    (&[11, 14, 49, 18], 5, 6.0, &[11, 14, 18]),
    (&[12, 15, 18], 5, 3.0, &[]),
    (&[13, 16], 9, 0.5, &[13, 16]),
    (&[14, 17, 20], 7, 5.0, &[14, 17, 20]),
    (&[15, 46, 21], 3, 9.0, &[]),
    (&[16, 19, 22, 24], 8, 2.0, &[]),
];

// Returns an engine of six stations on four channels with these lines and the own clause of station 0, after thinning.
fn thinned(alloc: Global) -> Result<Engine, NoMemory> {
    let mut engine = Engine::crowded(alloc, 6, 4)?;
    engine.put_on_channel(0, NOWHERE)?;
    let mut literals = Vec::new(alloc);
    for (number, line) in LINES.iter().enumerate() {
        literals.clear();
        for code in line.0 {
            literals.push(Literal { code: *code })?;
        }
        let name = Hint::Line(saturating_u32(number));
        let _at = engine.clauses.add(&literals, name, line.1, line.2)?;
    }
    engine.assign(Literal::of(23), Reason::Decision)?;
    engine.room = 0;
    engine.reduce_lines(alloc)?;
    Ok(engine)
}

// Checks whether a clause is stored at this place with this name and these literals. Its first two literals must watch it.
fn stands(alloc: Global, clauses: &mut KeptClauses, at: u32, name: Hint, codes: &[u32]) -> bool {
    if clauses.name(at) != name || clauses.codes(at) != codes || codes.len() < 2 {
        return false;
    }
    watches(alloc, clauses, codes[0], at) && watches(alloc, clauses, codes[1], at)
}

fn watches(alloc: Global, clauses: &mut KeptClauses, code: u32, at: u32) -> bool {
    let literal = Literal { code };
    let watches = clauses.take_watches(alloc, literal);
    let found = watches.iter().any(|watch| watch.at == at);
    clauses.put_watches(literal, watches);
    found
}

#[test]
fn little_used_half_is_dropped(rt: HostRuntime) -> Result<(), Fail> {
    let alloc = rt.alloc();
    let mut engine = thinned(alloc)?;
    let own = stands(alloc, &mut engine.clauses, 0, Hint::Own(0), &[0, 2, 4, 6]);
    assert!(rt; own);
    // Each clause takes three words besides its literals.
    let mut at: u32 = 7;
    let mut left: usize = 0;
    for (number, line) in LINES.iter().enumerate() {
        if line.3.is_empty() {
            continue;
        }
        let name = Hint::Line(saturating_u32(number));
        let stays = stands(alloc, &mut engine.clauses, at, name, line.3);
        assert!(rt; stays, "line {number} at {at}");
        at = at.saturating_add(saturating_u32(line.3.len())).saturating_add(3);
        left = left.saturating_add(1);
    }
    assert_eq!(rt; engine.clauses.lines(), left);
    assert_eq!(rt; engine.room, left.saturating_add(LINES_BETWEEN_REDUCTIONS));
    Ok(())
}
