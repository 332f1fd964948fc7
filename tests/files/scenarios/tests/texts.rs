//! Texts that are or are not JSON, and repeated members.

use crate::files::scenarios::tests::{Fault, first_not, first_otherwise, is_answered, says};
use scenario_json::name::Name;
use std::alloc::{AllocError as NoMemory, Global};
use std::test::Fail;

// Returns the index of the first text that is not rejected as a syntax error.
fn first_json(alloc: Global, cases: &[&[u8]]) -> Option<usize> {
    for (i, bytes) in cases.iter().enumerate() {
        if !says(alloc, bytes, Some(Fault::Syntax)) {
            return Some(i);
        }
    }
    None
}

#[test]
fn bytes_that_are_no_json(rt: HostRuntime) {
    const CASES: &[&[u8]] = &[
        b"",
        b" \n",
        b"{",
        b"{}}",
        b"{} x",
        b"{}\0",
        b"{'version':1}",
        b"{\"version\":1,}",
        b"{\"version\":01}",
        b"\xEF\xBB\xBF{}",
        b"\xFF",
        b"{\"version\":\"\xFF\"}",
    ];
    assert_eq!(rt; first_json(rt.alloc(), CASES), None);
}

// Checks the outcome of a text with lists nested this deep in an ignored member.
fn nests(alloc: Global, depth: usize, fault: Option<Fault>) -> Result<bool, NoMemory> {
    let before = "[".repeat(alloc, depth)?;
    let after = "]".repeat(alloc, depth)?;
    let other = format!(in alloc; "{{\"band\":{before}{after},")?;
    is_answered(alloc, "{", other.as_str(), fault)
}

#[test]
fn texts_that_are_no_json(rt: HostRuntime) -> Result<(), Fail> {
    const ROWS: &[(&str, &str)] = &[
        ("}]}", "}]"),
        ("}]}", "}]}x"),
        ("}]}", "}]}{}"),
        ("{", r#"{"band":1e999,"#),
        ("{", r#"{"band":"\ud800","#),
        ("{", r#"{"band":NaN,"#),
        (r#""top":15"#, r#""top":+15"#),
        (r#""top":15"#, r#""top":015"#),
    ];
    let syntax = Some(Fault::Syntax);
    assert_eq!(rt; first_not(rt.alloc(), syntax, ROWS)?, None);
    assert!(rt; nests(rt.alloc(), 127, syntax)?);
    assert!(rt; nests(rt.alloc(), 200, syntax)?);
    Ok(())
}

#[test]
fn texts_written_otherwise(rt: HostRuntime) -> Result<(), Fail> {
    const ROWS: &[(&str, &str)] = &[
        ("{", " \r\n\t{"),
        ("}]}", "} ] }\n"),
        (r#""top":15"#, r#""top" : 15"#),
        (r#""top":15"#, r#""t\u006fp":15"#),
        (r#""cdcl""#, r#""cd\u0063l""#),
        ("{", r#"{"band":"\ud83d\ude00","#),
    ];
    assert_eq!(rt; first_not(rt.alloc(), None, ROWS)?, None);
    assert!(rt; nests(rt.alloc(), 126, None)?);
    Ok(())
}

// The last of two members with the same name counts, also if one of them is of another kind.
#[test]
fn members_that_stand_twice(rt: HostRuntime) -> Result<(), Fail> {
    const ROWS: &[(&str, &str, Option<Fault>)] = &[
        (r#""top":15"#, r#""top":52,"top":15"#, None),
        (r#""top":15"#, r#""top":"x","top":15"#, None),
        (
            r#""top":15"#,
            r#""top":15,"top":52"#,
            Some(Fault::Outside(Name::Top, 0)),
        ),
        (
            r#""top":15"#,
            r#""top":15,"top":"x""#,
            Some(Fault::Wrong(Name::Top, 0)),
        ),
        (
            r#""top":15"#,
            r#""top":15,"t\u006fp":52"#,
            Some(Fault::Outside(Name::Top, 0)),
        ),
        (
            "}]}",
            r#"}],"decrements":7}"#,
            Some(Fault::Wrong(Name::Decrements, 0)),
        ),
        (r#""id":2"#, r#""id":1,"id":2"#, None),
        (r#""id":2"#, r#""id":2,"id":1"#, Some(Fault::Repeated(1))),
        (r#""cdcl""#, r#""walk","kind":"cdcl""#, None),
        (
            r#""cdcl""#,
            r#""cdcl","kind":"walk""#,
            Some(Fault::NoProver),
        ),
    ];
    assert_eq!(rt; first_otherwise(rt.alloc(), ROWS)?, None);
    Ok(())
}
