//! The generated files of some seeds and sizes equal texts from an independent program and those of a second implementation.

use crate::files::generated::plain::{domains, rows_and_scenario};
use scenario_make::make::make;
use std::alloc::{AllocError as NoMemory, Global};
use std::test::Fail;

// A seed and a size, the domain file, and the row file followed by the scenario file.
type Row = (u64, u32, &'static str, &'static str);

const WRITTEN_OUT: &[Row] = &[
    (
        7,
        1,
        "DOMAIN,1,14,15,16,17\n",
        r#"{"decrements":[10,10,10,10,10,10,10,10,10,10],"opening":100,"stations":[{"id":1,"value":21581,"volume":450}],"top":17,"version":1,"workers":[{"budget":100000,"kind":"cdcl","seed":0},{"budget":1000,"kind":"walk","seed":7}]}"#,
    ),
    (
        7,
        3,
        "DOMAIN,1,14,15,16,17\nDOMAIN,2,14,15,16,17\nDOMAIN,3,14,15,16,17\n",
        "CO,14,14,1,2,3\nCO,15,15,1,2,3\nCO,16,16,1,2,3\nCO,17,17,1,2,3\nCO,14,14,2,3\nCO,15,15,2,3\nCO,16,16,2,3\nCO,17,17,2,3\n{\"decrements\":[10,10,10,10,10,10,10,10,10,10],\"opening\":100,\"stations\":[{\"id\":1,\"value\":21581,\"volume\":450},{\"id\":2,\"value\":12494,\"volume\":136},{\"id\":3,\"value\":24098,\"volume\":765}],\"top\":17,\"version\":1,\"workers\":[{\"budget\":100000,\"kind\":\"cdcl\",\"seed\":0},{\"budget\":1000,\"kind\":\"walk\",\"seed\":7}]}",
    ),
];

// Checks whether the files of a seed and a size are these. `others` is the row file followed by the scenario file.
fn are_made(
    alloc: Global,
    seed: u64,
    size: u32,
    domains: &str,
    others: &str,
) -> Result<bool, NoMemory> {
    if size == 0 || size > 4096 {
        return Ok(false);
    }
    let made = make(alloc, seed, size)?;
    let mut rows = made.rows;
    rows.extend_from_slice(&made.scenario)?;
    Ok(made.domains.as_slice() == domains.as_bytes() && rows.as_slice() == others.as_bytes())
}

// Returns the seed and size of the first row whose files differ.
fn first_other(alloc: Global, rows: &[Row]) -> Result<Option<(u64, u32)>, NoMemory> {
    for row in rows {
        let (seed, size, domains, others) = *row;
        if !are_made(alloc, seed, size, domains, others)? {
            return Ok(Some((seed, size)));
        }
    }
    Ok(None)
}

// Checks whether the files of a seed and a size are those of the second implementation.
fn are_written_twice(alloc: Global, seed: u64, size: u32) -> Result<bool, NoMemory> {
    let domains = domains(alloc, size)?;
    let others = rows_and_scenario(alloc, seed, size)?;
    are_made(alloc, seed, size, domains.as_str(), others.as_str())
}

// Returns the first seed and size for which the two implementations differ.
fn first_unlike(alloc: Global, cases: &[(u64, u32)]) -> Result<Option<(u64, u32)>, NoMemory> {
    for case in cases {
        if !are_written_twice(alloc, case.0, case.1)? {
            return Ok(Some(*case));
        }
    }
    Ok(None)
}

#[test]
fn files_written_out(rt: HostRuntime) -> Result<(), Fail> {
    assert_eq!(rt; first_other(rt.alloc(), WRITTEN_OUT)?, None);
    Ok(())
}

#[test]
fn files_of_a_second_writing(rt: HostRuntime) -> Result<(), Fail> {
    const CASES: &[(u64, u32)] = &[
        (0, 1),
        (0, 16),
        (0, 17),
        (0, 256),
        (7, 1),
        (7, 16),
        (7, 17),
        (7, 256),
        (18_446_744_073_709_551_615, 1),
        (18_446_744_073_709_551_615, 16),
        (18_446_744_073_709_551_615, 17),
        (18_446_744_073_709_551_615, 256),
    ];
    assert_eq!(rt; first_unlike(rt.alloc(), CASES)?, None);
    Ok(())
}
