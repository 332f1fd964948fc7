//! Batch lists that are accepted or rejected, and results that a list names twice.

use batch_list::error::ListErr;
use batch_list::line::BatchLine;
use batch_list::read::read_list;
use batch_list::repeated::first_repeated;
use std::alloc::{AllocError, Global};
use std::test::Fail;

// Returns the names of these lines, as `scenario>result;`.
fn shown(alloc: Global, lines: &[BatchLine]) -> Result<String, AllocError> {
    let mut shown = String::new(alloc);
    for line in lines {
        shown.push_str(line.scenario())?;
        shown.push('>')?;
        shown.push_str(line.result())?;
        shown.push(';')?;
    }
    Ok(shown)
}

// Returns the names of a list with these bytes, `empty`, or the number of the rejected line.
fn told(alloc: Global, bytes: &[u8]) -> Result<String, AllocError> {
    match read_list(alloc, bytes) {
        Ok(lines) => shown(alloc, &lines),
        Err(ListErr::Empty) => String::from_str(alloc, "empty"),
        Err(ListErr::BadLine { line }) => format!(in alloc; "{line}"),
        Err(ListErr::NoMemory) => Err(AllocError),
    }
}

// Returns the expected text of the first list with another outcome.
fn first_misread<'a>(
    alloc: Global,
    cases: &[(&[u8], &'a str)],
) -> Result<Option<&'a str>, AllocError> {
    for (bytes, want) in cases {
        if told(alloc, bytes)?.as_str() != *want {
            return Ok(Some(want));
        }
    }
    Ok(None)
}

#[test]
fn read_and_refused(rt: HostRuntime) -> Result<(), Fail> {
    const CASES: &[(&[u8], &str)] = &[
        (b"a,b", "a>b;"),
        (b"a,b\nc,d\n", "a>b;c>d;"),
        (b"a,b\r\nc,d\r\n", "a>b;c>d;"),
        (b"a,b,,\n", "a>b;"),
        (b" a ,\tb c\t\n", "a>b c;"),
        (b"\"a,1\",\"b\"", "a,1>b;"),
        (b",b\n", ">b;"),
        (b"a,\xC3\xA9", "a>\u{E9};"),
        (b"a,b\n\n ,\na,b\n", "a>b;a>b;"),
        (b"", "empty"),
        (b"\n", "empty"),
        (b" ,\n\t\n", "empty"),
        (b"a\n", "1"),
        (b"a,\n", "1"),
        (b"a,b,c\n", "1"),
        (b"a,,c\n", "1"),
        (b"a,b\n\nc\n", "3"),
        (b"\xFF,b\n", "1"),
        (b"a,b\na,\xFF\n", "2"),
        (b"a,b\nc,d,e\n\xFF\n", "2"),
    ];
    assert_eq!(rt; first_misread(rt.alloc(), CASES)?, None);
    Ok(())
}

// Returns a list of this many records, one in each line.
fn list_of(alloc: Global, count: usize) -> Result<Vec<u8>, AllocError> {
    let mut bytes = Vec::new(alloc);
    for _ in 0..count {
        bytes.extend_from_slice(b"a,b\n")?;
    }
    Ok(bytes)
}

// Returns the number of records of a list of this many, or the rejected line.
fn counted(alloc: Global, count: usize) -> Result<Result<usize, u64>, AllocError> {
    let bytes = list_of(alloc, count)?;
    match read_list(alloc, &bytes) {
        Ok(lines) => Ok(Ok(lines.len())),
        Err(ListErr::BadLine { line }) => Ok(Err(line)),
        Err(_) => Err(AllocError),
    }
}

#[test]
fn as_many_as_fit(rt: HostRuntime) -> Result<(), Fail> {
    assert_eq!(rt; counted(rt.alloc(), 256)?, Ok(256));
    assert_eq!(rt; counted(rt.alloc(), 257)?, Err(257));
    Ok(())
}

// The words of the command for each list below.
const WORDS: &[&str] = &["batch", "domains", "rows", "domains"];

// Returns the result name that this list gives twice, `none` if no name is repeated, or `refused`.
fn repeated(alloc: Global, bytes: &[u8]) -> Result<String, AllocError> {
    match read_list(alloc, bytes) {
        Ok(lines) => String::from_str(alloc, first_repeated(WORDS, &lines).unwrap_or("none")),
        Err(_) => String::from_str(alloc, "refused"),
    }
}

// Returns the expected name of the first list in which another one is found.
fn first_found<'a>(
    alloc: Global,
    cases: &[(&[u8], &'a str)],
) -> Result<Option<&'a str>, AllocError> {
    for (bytes, want) in cases {
        if repeated(alloc, bytes)?.as_str() != *want {
            return Ok(Some(want));
        }
    }
    Ok(None)
}

#[test]
fn results_given_twice(rt: HostRuntime) -> Result<(), Fail> {
    const CASES: &[(&[u8], &str)] = &[
        (b"a,r\nb,s\n", "none"),
        (b"a,r\na,s\n", "none"),
        (b"domains,r\nrows,s\n", "none"),
        (b"a,r\na,./r\n", "none"),
        (b"a,r\nr,s\n", "r"),
        (b"a,a\n", "a"),
        (b"a,r\nb,s\nc,r\n", "r"),
        (b"a,r\nb,rows\n", "rows"),
        (b"a,r\nb,domains\n", "domains"),
        (b"a,r\nb,s\nc,s\nd,r\n", "r"),
        (b"a,r\nb,s\nr,batch\n", "r"),
        (b"a,r\nb,batch\nc,a\n", "batch"),
    ];
    assert_eq!(rt; first_found(rt.alloc(), CASES)?, None);
    Ok(())
}
