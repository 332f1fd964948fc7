use super::*;

#[test]
fn the_sequence_begins_so(rt: HostRuntime) {
    let first = [1, 1, 2, 1, 1, 2, 4, 1, 1, 2, 1, 1, 2, 4, 8];
    for (i, units) in first.iter().enumerate() {
        assert_eq!(rt; luby(i as u64 + 1), *units);
    }
}
