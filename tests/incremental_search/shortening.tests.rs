use super::*;
use std::test::Fail;

// Returns an engine over ten stations; no five of them fit. Its known disproof has this many lines, and is of the five stations from
// `first`. The last of these is the tested one.
fn known(alloc: Global, first: u32, lines: u32) -> Result<Engine, NoMemory> {
    let mut engine = Engine::crowded(alloc, 10, 4)?;
    engine.tested = first.saturating_add(4);
    for line in 0..lines {
        engine.cone.lines.push(line)?;
    }
    for place in 0..5 {
        engine.cone.places.push(first.saturating_add(place))?;
    }
    Ok(engine)
}

// Searches for a disproof with fewer than this many lines. Returns the outcome and the engine, or `None` if the search does not end.
fn ended(alloc: Global, lines: u32) -> Result<Option<(Option<Disproof>, Engine)>, NoMemory> {
    let known = known(alloc, 0, lines)?;
    let mut shortening = Shortening::begin(alloc, &known, None, 1000)?;
    for _ in 0..1000 {
        if shortening.continue_search(alloc, 16)? {
            return Ok(Some(shortening.into_ended()));
        }
    }
    Ok(None)
}

#[test]
fn shorter_log_is_suggested(rt: HostRuntime) -> Result<(), Fail> {
    for lines in [500, 100] {
        let found = ended(rt.alloc(), lines)?.ok_or("no end")?.0;
        let log = found.ok_or("none that is shorter")?.log;
        assert!(rt; log.lines.len() < lines as usize, "{lines} lines");
        assert!(rt; log.ends_empty(), "{lines} lines");
    }
    let found = ended(rt.alloc(), 1)?.ok_or("no end")?.0;
    assert!(rt; found.is_none());
    Ok(())
}

#[test]
fn group_lines_serve_the_group_alone(rt: HostRuntime) -> Result<(), Fail> {
    // Of the four untested stations from `first`, none, one, two or all are new to the engine of the crowd.
    for (first, is_kept) in [(0, true), (1, true), (2, false), (5, false)] {
        let group = ended(rt.alloc(), 500)?.ok_or("no end")?.1;
        let known = known(rt.alloc(), first, 500)?;
        let next = Shortening::begin(rt.alloc(), &known, Some(group), 1000)?;
        assert_eq!(rt; next.engine.lines.len() > 0, is_kept, "from {first} on");
    }
    Ok(())
}
