use super::*;
use std::test::Fail;

// The hints of each line; its one literal is its number. Then whether the line is held after a sweep that needs line 5, and after a later
// sweep that needs line 8. Line 8 is added between the sweeps, and line 6 is a fact.
const LINES: &[(&[Hint], bool, bool)] = &[
    (&[Hint::Own(3)], true, false),
    (&[Hint::Line(0), Hint::Pair { v: 2, w: 5 }], true, false),
    (&[Hint::Line(1)], true, false),
    (&[Hint::Own(1)], false, false),
    (&[Hint::Line(3), Hint::Own(2)], false, false),
    (&[Hint::Line(0), Hint::Line(2)], true, false),
    (&[Hint::Pair { v: 1, w: 4 }, Hint::Own(7)], true, true),
    (&[Hint::Line(4)], false, false),
];

const LAST: &[Hint] = &[Hint::Line(6), Hint::Pair { v: 0, w: 9 }];

fn all_lines(alloc: Global) -> Result<KeptLines, NoMemory> {
    let mut lines = KeptLines::new(alloc, 10)?;
    for line in LINES {
        let literal = Literal { code: lines.len() };
        let _number = lines.add(&[literal], line.0)?;
    }
    lines.set_fact(3, 6);
    Ok(lines)
}

fn sweep(alloc: Global, lines: &mut KeptLines, line: u32) -> Result<(), NoMemory> {
    let mut needed = filled(alloc, lines.len(), false)?;
    write(&mut needed, line, true);
    lines.sweep(alloc, &mut needed)
}

// Checks whether a line has these hints and the literal of its number, or nothing if the line is not held.
fn is_line(
    alloc: Global,
    lines: &KeptLines,
    number: u32,
    hints: &[Hint],
    held: bool,
) -> Result<bool, NoMemory> {
    let mut found = Vec::new(alloc);
    lines.hints(number, &mut found)?;
    if held {
        return Ok(lines.codes(number) == [number].as_slice() && found.as_slice() == hints);
    }
    Ok(lines.codes(number).is_empty() && found.is_empty())
}

#[test]
fn a_sweep_holds_what_is_needed(rt: HostRuntime) -> Result<(), Fail> {
    let alloc = rt.alloc();
    let mut lines = all_lines(alloc)?;
    sweep(alloc, &mut lines, 5)?;
    for (i, line) in LINES.iter().enumerate() {
        assert!(rt; is_line(alloc, &lines, saturating_u32(i), line.0, line.1)?, "{i}");
    }
    assert_eq!(rt; lines.add(&[Literal { code: 8 }], LAST)?, 8);
    sweep(alloc, &mut lines, 8)?;
    for (i, line) in LINES.iter().enumerate() {
        assert!(rt; is_line(alloc, &lines, saturating_u32(i), line.0, line.2)?, "{i}");
    }
    assert!(rt; is_line(alloc, &lines, 8, LAST, true)?);
    Ok(())
}
