//! Which name of a file to store is given twice.

use crate::words::reading::is_given_twice;
use std::alloc::{AllocError as NoMemory, Global};
use std::test::Fail;

// Returns the first line whose name given twice is not the expected one.
fn other_repeat<'a>(
    alloc: Global,
    table: &[(&'a str, Option<&str>)],
) -> Result<Option<&'a str>, NoMemory> {
    for &(line, wanted) in table {
        if !is_given_twice(alloc, line, wanted)? {
            return Ok(Some(line));
        }
    }
    Ok(None)
}

const RUN_NAMES: &[(&str, Option<&str>)] = &[
    ("repack,run,d,r,s,o,c,t", None),
    // Names to read may be equal.
    ("repack,run,d,d,d,o,c,t", None),
    // Names with different bytes are different names.
    ("repack,run,d,r,s,./d,D,d ", None),
    ("repack,run,d,r,s,d,c,t", Some("d")),
    ("repack,run,d,r,s,s,c,t", Some("s")),
    ("repack,run,d,r,s,o,o,t", Some("o")),
    ("repack,run,d,r,s,o,c,o", Some("o")),
    ("repack,run,d,r,s,o,c,c", Some("c")),
    ("repack,run,d,r,s,o,d,t", Some("d")),
    ("repack,run,d,r,s,o,c,r", Some("r")),
    // The first repeated name in the order of the arguments is reported.
    ("repack,run,d,r,s,o,r,d", Some("r")),
    ("repack,run,d,r,s,o,d,o", Some("o")),
    ("repack,run,d,r,s,,,", Some("")),
    ("repack,live,d,r,w,w,o,c,t", None),
    ("repack,live,d,r,s,w,w,c,t", Some("w")),
    ("repack,live,d,r,s,w,o,w,t", Some("w")),
    ("repack,live,d,r,s,w,o,c,w", Some("w")),
    ("repack,live,d,r,s,w,o,w,o", Some("o")),
    ("repack,live,d,r,s,w,o,c,s", Some("s")),
];

const SHOW_NAMES: &[(&str, Option<&str>)] = &[
    ("repack,show,d,r,s,t,o,c", None),
    ("repack,show,d,d,d,d,./d,c", None),
    ("repack,show,d,r,s,t,o,o", Some("o")),
    ("repack,show,d,r,s,t,d,c", Some("d")),
    ("repack,show,d,r,s,t,r,c", Some("r")),
    ("repack,show,d,r,s,t,s,c", Some("s")),
    ("repack,show,d,r,s,t,t,c", Some("t")),
    ("repack,show,d,r,s,t,o,d", Some("d")),
    ("repack,show,d,r,s,t,o,r", Some("r")),
    ("repack,show,d,r,s,t,o,s", Some("s")),
    ("repack,show,d,r,s,t,o,t", Some("t")),
    ("repack,show,d,r,s,t,t,d", Some("t")),
    ("repack,show-live,d,r,s,w,t,o,c", None),
    ("repack,show-live,d,r,s,w,w,o,c", None),
    ("repack,show-live,d,r,s,w,t,w,c", Some("w")),
    ("repack,show-live,d,r,s,w,t,o,w", Some("w")),
    ("repack,show-live,d,r,s,w,t,o,s", Some("s")),
    ("repack,show-live,d,r,s,w,t,o,t", Some("t")),
];

const RESUME_NAMES: &[(&str, Option<&str>)] = &[
    ("repack,resume,d,r,s,p,o,c,t", None),
    ("repack,resume,d,r,s,d,o,c,t", None),
    ("repack,resume,d,r,s,p,p,c,t", Some("p")),
    ("repack,resume,d,r,s,p,o,p,t", Some("p")),
    ("repack,resume,d,r,s,p,o,c,p", Some("p")),
    ("repack,resume,d,r,s,p,o,c,r", Some("r")),
    ("repack,resume,d,r,s,p,o,c,o", Some("o")),
];

const SEEK_NAMES: &[(&str, Option<&str>)] = &[
    ("repack,seek,d,r,s,c", None),
    ("repack,seek,d,d,d,c", None),
    ("repack,seek,d,r,s,d", Some("d")),
    ("repack,seek,d,r,s,r", Some("r")),
    ("repack,seek,d,r,s,s", Some("s")),
];

#[test]
fn a_name_that_an_auction_stores_is_given_twice(rt: HostRuntime) -> Result<(), Fail> {
    assert_eq!(rt; other_repeat(rt.alloc(), RUN_NAMES)?, None);
    assert_eq!(rt; other_repeat(rt.alloc(), SHOW_NAMES)?, None);
    assert_eq!(rt; other_repeat(rt.alloc(), RESUME_NAMES)?, None);
    assert_eq!(rt; other_repeat(rt.alloc(), SEEK_NAMES)?, None);
    Ok(())
}

const MADE_NAMES: &[(&str, Option<&str>)] = &[
    ("repack,make,7,1,d,r,s", None),
    ("repack,make,7,1,d,./d,D", None),
    // The seed and the size are not names.
    ("repack,make,7,1,7,1,", None),
    ("repack,make,7,1,d,d,s", Some("d")),
    ("repack,make,7,1,d,r,d", Some("d")),
    ("repack,make,7,1,d,r,r", Some("r")),
    ("repack,make,7,1,,,", Some("")),
];

const EXPORTED_NAMES: &[(&str, Option<&str>)] = &[
    ("repack,export,d,r,s,t,1,c", None),
    // The step is not a name, and names to read may be equal.
    ("repack,export,d,r,s,t,1,1", None),
    ("repack,export,d,d,d,d,1,./d", None),
    ("repack,export,d,r,s,t,1,d", Some("d")),
    ("repack,export,d,r,s,t,1,r", Some("r")),
    ("repack,export,d,r,s,t,1,s", Some("s")),
    ("repack,export,d,r,s,t,1,t", Some("t")),
    ("repack,export,d,r,s,,1,", Some("")),
];

const IMPORTED_NAMES: &[(&str, Option<&str>)] = &[
    ("repack,import,d,r,s,t,1,l,o,n", None),
    ("repack,import,d,r,s,t,1,l,1,n", None),
    ("repack,import,d,d,d,d,1,d,o,./d", None),
    ("repack,import,d,r,s,t,1,l,d,n", Some("d")),
    ("repack,import,d,r,s,t,1,l,r,n", Some("r")),
    ("repack,import,d,r,s,t,1,l,s,n", Some("s")),
    ("repack,import,d,r,s,t,1,l,t,n", Some("t")),
    ("repack,import,d,r,s,t,1,l,l,n", Some("l")),
    ("repack,import,d,r,s,t,1,l,n,n", Some("n")),
    ("repack,import,d,r,s,t,1,l,o,d", Some("d")),
    ("repack,import,d,r,s,t,1,l,o,r", Some("r")),
    ("repack,import,d,r,s,t,1,l,o,s", Some("s")),
    ("repack,import,d,r,s,t,1,l,o,t", Some("t")),
    ("repack,import,d,r,s,t,1,l,o,l", Some("l")),
    ("repack,import,d,r,s,t,1,l,o,o", Some("o")),
    ("repack,import,d,r,s,t,1,l,s,d", Some("s")),
];

#[test]
fn a_number_is_no_name_given_twice(rt: HostRuntime) -> Result<(), Fail> {
    assert_eq!(rt; other_repeat(rt.alloc(), MADE_NAMES)?, None);
    assert_eq!(rt; other_repeat(rt.alloc(), EXPORTED_NAMES)?, None);
    assert_eq!(rt; other_repeat(rt.alloc(), IMPORTED_NAMES)?, None);
    Ok(())
}

// Commands that store no file, or only those that a list names.
const NO_NAMES: &[(&str, Option<&str>)] = &[
    ("repack,check,d,d,d", None),
    ("repack,verify,d,d,d,d", None),
    ("repack,verify-live,d,d,d,d,d", None),
    ("repack,batch,d,d,d", None),
];

#[test]
fn names_to_read_may_be_equal(rt: HostRuntime) -> Result<(), Fail> {
    assert_eq!(rt; other_repeat(rt.alloc(), NO_NAMES)?, None);
    Ok(())
}
