use super::*;
use std::mem::size_of;
use std::test::Fail;

// A line that cannot be packed leaves no bytes, and copied and fitted lines have no spare room.
#[test]
fn no_byte_more_than_the_lines_need(rt: HostRuntime) -> Result<(), Fail> {
    let alloc = rt.alloc();
    let lit = Lit {
        var: 6,
        positive: true,
    };
    let too_great = Lit {
        var: u64::MAX,
        positive: true,
    };
    let mut lines = Lines::new(alloc);
    for hint in 1..6 {
        lines.push(&[lit], &[hint])?;
    }
    assert!(rt; lines.push(&[lit, too_great], &[7]).is_err());
    let copied = lines.copied(alloc)?;
    assert_eq!(rt; copied.bytes.capacity(), 10);
    assert_eq!(rt; copied.spans.capacity(), 5);
    let fitted = lines.fitted();
    assert_eq!(rt; fitted.bytes.capacity(), 10);
    assert_eq!(rt; fitted.spans.capacity(), 5);
    Ok(())
}

// A line of 20 literals and 17 hints, the averages in a national auction, takes at most 150 bytes.
#[test]
fn a_line_of_usual_length_is_small(rt: HostRuntime) -> Result<(), Fail> {
    let alloc = rt.alloc();
    let lit = Lit {
        var: 1_048_575,
        positive: false,
    };
    let mut lines = Lines::new(alloc);
    lines.push(&[lit; 20], &[2_097_151; 17])?;
    assert!(rt; lines.bytes.len() + size_of::<Span>() <= 150);
    Ok(())
}
