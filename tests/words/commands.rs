//! Which command the words of a command line are, and which words are rejected.

use crate::words::reading::read;
use std::alloc::{AllocError as NoMemory, Global};
use std::test::Fail;

// Checks whether the words are rejected with a text of complete lines that begins with `start`.
fn is_refused(alloc: Global, line: &str, start: &str) -> Result<bool, NoMemory> {
    let text = read(alloc, line)?;
    Ok(text.starts_with(start) && text.ends_with('\n'))
}

// Returns the first line that is not rejected with its `start`.
fn unrefused<'a>(alloc: Global, table: &[(&'a str, &str)]) -> Result<Option<&'a str>, NoMemory> {
    for &(line, start) in table {
        if !is_refused(alloc, line, start)? {
            return Ok(Some(line));
        }
    }
    Ok(None)
}

const NO_COMMAND: &str = "error: 'repack' requires a subcommand but one was not provided\n";

const CHEK: &str = "error: unrecognized subcommand 'chek'\n";

const MORE: &str = "error: unexpected argument 'more' found\n";

const REFUSED: &[(&str, &str)] = &[
    ("", NO_COMMAND),
    ("repack", NO_COMMAND),
    ("bin/other", NO_COMMAND),
    ("repack,frob", "error: unrecognized subcommand 'frob'\n"),
    (
        "repack,Run,d,r,s,o,c,t",
        "error: unrecognized subcommand 'Run'\n",
    ),
    ("repack,chek,d,r,s", CHEK),
    ("repack,help,chek", CHEK),
    // Names that are similar to the word, the most similar last.
    (
        "repack,shwo,d,r,s,t,o,c",
        "error: unrecognized subcommand 'shwo'\n\n  tip: some similar subcommands exist: 'show-live', 'show'\n",
    ),
    (
        "repack,show-lve,d,r,s,w,t,o,c",
        "error: unrecognized subcommand 'show-lve'\n\n  tip: some similar subcommands exist: 'show', 'show-live'\n",
    ),
    ("repack,check,d,r,s,more", MORE),
    ("repack,run,d,r,s,o,c,t,more", MORE),
    (
        "repack,check,d,r",
        "error: the following required arguments were not provided:\n  <SCENARIO>\n\n",
    ),
    (
        "repack,run,d,r,s,o,c",
        "error: the following required arguments were not provided:\n  <TRANSCRIPT>\n\n",
    ),
    (
        "repack,check,-d,r,s",
        "error: unexpected argument '-d' found\n",
    ),
    (
        "repack,make,7,4097,d,r,s",
        "error: invalid value '4097' for '<SIZE>': 4097 is not in 1..=4096\n",
    ),
    (
        "repack,make,18446744073709551616,1,d,r,s",
        "error: invalid value '18446744073709551616' for '<SEED>': number too large to fit in target type\n",
    ),
    (
        "repack,make,7,1,d,r",
        "error: the following required arguments were not provided:\n  <SCENARIO>\n\n",
    ),
    (
        "repack,--,check,d,r,s",
        "error: unexpected argument 'check' found\n",
    ),
];

#[test]
fn words_are_refused(rt: HostRuntime) -> Result<(), Fail> {
    assert_eq!(rt; unrefused(rt.alloc(), REFUSED)?, None);
    Ok(())
}

const WRONG_COUNTS: &[(&str, &str)] = &[
    ("repack,export,d,r,s,t,1,c,more", MORE),
    ("repack,import,d,r,s,t,1,l,o,n,more", MORE),
    (
        "repack,export,d,r,s,t,1",
        "error: the following required arguments were not provided:\n  <CNF>\n\n",
    ),
    (
        "repack,export,d,r,s,t",
        "error: the following required arguments were not provided:\n  <STEP>\n  <CNF>\n\n",
    ),
    (
        "repack,import,d,r,s,t,1,l,o",
        "error: the following required arguments were not provided:\n  <NEWTRANSCRIPT>\n\n",
    ),
    ("repack,live,d,r,s,w,o,c,t,more", MORE),
    (
        "repack,live,d,r,s,w,o,c",
        "error: the following required arguments were not provided:\n  <TRANSCRIPT>\n\n",
    ),
    (
        "repack,verify-live,d,r,s,t",
        "error: the following required arguments were not provided:\n  <TRANSCRIPT>\n\n",
    ),
    ("repack,show,d,r,s,t,o,c,more", MORE),
    (
        "repack,show,d,r,s,t,o",
        "error: the following required arguments were not provided:\n  <CHANNELS>\n\n",
    ),
    ("repack,show-live,d,r,s,w,t,o,c,more", MORE),
    (
        "repack,show-live,d,r,s,w,t,o",
        "error: the following required arguments were not provided:\n  <CHANNELS>\n\n",
    ),
    ("repack,resume,d,r,s,p,o,c,t,more", MORE),
    (
        "repack,resume,d,r,s,p,o,c",
        "error: the following required arguments were not provided:\n  <TRANSCRIPT>\n\n",
    ),
    ("repack,seek,d,r,s,c,more", MORE),
    (
        "repack,seek,d,r,s",
        "error: the following required arguments were not provided:\n  <CHANNELS>\n\n",
    ),
    // A name in the place of STEP is not a number.
    (
        "repack,export,d,r,s,1,c",
        "error: invalid value 'c' for '<STEP>': invalid digit found in string\n",
    ),
    (
        "repack,import,d,r,s,1,l,o,n",
        "error: invalid value 'l' for '<STEP>': invalid digit found in string\n",
    ),
];

#[test]
fn a_wrong_count_of_names_is_refused(rt: HostRuntime) -> Result<(), Fail> {
    assert_eq!(rt; unrefused(rt.alloc(), WRONG_COUNTS)?, None);
    Ok(())
}

// The message for an invalid step.
const RANGE: &str = "error: invalid value '0' for '<STEP>': 0 is not in 1..=4294967295\n";

const LONG: &str =
    "error: invalid value '4294967296' for '<STEP>': 4294967296 is not in 1..=4294967295\n";

const DIGITS: &str = "error: invalid value 'abc' for '<STEP>': invalid digit found in string\n";

const NO_DIGIT: &str =
    "error: invalid value '' for '<STEP>': cannot parse integer from empty string\n";

const MINUS: &str = "error: unexpected argument '-1' found\n";

const STEPS: &[(&str, &str)] = &[
    ("repack,export,d,r,s,t,0,c", RANGE),
    ("repack,export,d,r,s,t,4294967296,c", LONG),
    ("repack,export,d,r,s,t,abc,c", DIGITS),
    ("repack,export,d,r,s,t,,c", NO_DIGIT),
    ("repack,export,d,r,s,t,-1,c", MINUS),
    ("repack,import,d,r,s,t,0,l,o,n", RANGE),
    ("repack,import,d,r,s,t,4294967296,l,o,n", LONG),
    ("repack,import,d,r,s,t,abc,l,o,n", DIGITS),
    ("repack,import,d,r,s,t,,l,o,n", NO_DIGIT),
    ("repack,import,d,r,s,t,-1,l,o,n", MINUS),
    (
        "repack,import,d,r,s,t,--,-1,l,o,n",
        "error: invalid value '-1' for '<STEP>': invalid digit found in string\n",
    ),
];

#[test]
fn a_step_is_a_number(rt: HostRuntime) -> Result<(), Fail> {
    assert_eq!(rt; unrefused(rt.alloc(), STEPS)?, None);
    Ok(())
}

// Checks whether a text fits a terminal of 80 columns. The usage is one line and may be longer.
fn is_narrow(text: &str) -> bool {
    text.lines()
        .all(|line| line.len() <= 80 || line.starts_with("Usage: "))
}

// Checks whether the words print a narrow help with this start and this usage.
fn is_help(alloc: Global, line: &str, start: &str, usage: &str) -> Result<bool, NoMemory> {
    let text = read(alloc, line)?;
    Ok(text.starts_with(start) && text.contains(usage) && is_narrow(&text))
}

// Returns the first line that does not print a help with its start and usage.
fn unhelped<'a>(
    alloc: Global,
    table: &[(&'a str, &str, &str)],
) -> Result<Option<&'a str>, NoMemory> {
    for &(line, start, usage) in table {
        if !is_help(alloc, line, start, usage)? {
            return Ok(Some(line));
        }
    }
    Ok(None)
}

// The beginnings of the help of the program, of `run` and of `check`, and their usages.
const ABOUT: &str = "Runs the reverse clock auction ";

const USAGE: &str = "\nUsage: repack <COMMAND>\n";

const ABOUT_RUN: &str = "Runs the auction, ";

const USAGE_OF_RUN: &str =
    "\nUsage: repack run <DOMAINS> <ROWS> <SCENARIO> <RESULT> <CHANNELS> <TRANSCRIPT>\n";

const ABOUT_CHECK: &str = "Checks the input files ";

const USAGE_OF_CHECK: &str = "\nUsage: repack check <DOMAINS> <ROWS> <SCENARIO>\n";

const HELPS: &[(&str, &str, &str)] = &[
    ("repack,--help", ABOUT, USAGE),
    ("repack,-h", ABOUT, USAGE),
    ("repack,help", ABOUT, USAGE),
    ("repack,--help,run", ABOUT, USAGE),
    ("bin/other,help,run", ABOUT_RUN, USAGE_OF_RUN),
    ("repack,run,--help", ABOUT_RUN, USAGE_OF_RUN),
    ("repack,help,check", ABOUT_CHECK, USAGE_OF_CHECK),
    ("repack,check,d,r,s,-h", ABOUT_CHECK, USAGE_OF_CHECK),
    (
        "repack,make,--help",
        "Makes an auction ",
        "\nUsage: repack make <SEED> <SIZE> <DOMAINS> <ROWS> <SCENARIO>\n",
    ),
    (
        "repack,live,--help",
        "Runs the auction by what the owners say ",
        "\nUsage: repack live <DOMAINS> <ROWS> <SCENARIO> <OWNERS> <RESULT> <CHANNELS> <TRANSCRIPT>\n",
    ),
    (
        "repack,help,verify-live",
        "Checks a live auction's transcript ",
        "\nUsage: repack verify-live <DOMAINS> <ROWS> <SCENARIO> <OWNERS> <TRANSCRIPT>\n",
    ),
    (
        "repack,show,--help",
        "Checks a transcript and stores its result ",
        "\nUsage: repack show <DOMAINS> <ROWS> <SCENARIO> <TRANSCRIPT> <RESULT> <CHANNELS>\n",
    ),
    (
        "repack,help,show-live",
        "Checks a live auction's transcript and stores ",
        "\nUsage: repack show-live <DOMAINS> <ROWS> <SCENARIO> <OWNERS> <TRANSCRIPT> <RESULT> <CHANNELS>\n",
    ),
    (
        "repack,resume,--help",
        "Goes on with an auction ",
        "\nUsage: repack resume <DOMAINS> <ROWS> <SCENARIO> <PREFIX> <RESULT> <CHANNELS> <TRANSCRIPT>\n",
    ),
    (
        "repack,seek,--help",
        "Seeks the least top channel ",
        "\nUsage: repack seek <DOMAINS> <ROWS> <SCENARIO> <CHANNELS>\n",
    ),
    (
        "repack,help,batch",
        "Runs the auctions of many scenarios and ",
        "\nUsage: repack batch <DOMAINS> <ROWS> <LIST>\n",
    ),
    (
        "repack,export,--help",
        "Writes the packing formula ",
        "\nUsage: repack export <DOMAINS> <ROWS> <SCENARIO> <TRANSCRIPT> <STEP> <CNF>\n",
    ),
    (
        "repack,help,import",
        "Settles an undecided step ",
        "\nUsage: repack import <DOMAINS> <ROWS> <SCENARIO> <TRANSCRIPT> <STEP> <LRAT> <RESULT> <NEWTRANSCRIPT>\n",
    ),
];

#[test]
fn help_is_printed(rt: HostRuntime) -> Result<(), Fail> {
    assert_eq!(rt; unhelped(rt.alloc(), HELPS)?, None);
    Ok(())
}

// Returns the first line that is not read as its text.
fn misread<'a>(alloc: Global, table: &[(&'a str, &str)]) -> Result<Option<&'a str>, NoMemory> {
    for &(line, wanted) in table {
        let text = read(alloc, line)?;
        if text.as_str() != wanted {
            return Ok(Some(line));
        }
    }
    Ok(None)
}

const ORDERS: &[(&str, &str)] = &[
    (
        "repack,run,d.csv,r.csv,s.json,o.csv,c.csv,t.txt",
        "command run,d.csv,r.csv,s.json,o.csv,c.csv,t.txt",
    ),
    // An empty name, a lone dash, a name with a blank, one name several times, and names of commands.
    (
        "other,run,,-,a b,-,run,check",
        "command run,,-,a b,-,run,check",
    ),
    (
        "repack,run,d,--,-r,--help,-,--,-h",
        "command run,d,-r,--help,-,--,-h",
    ),
    (
        "repack,check,d.csv,r.csv,s.json",
        "command check,d.csv,r.csv,s.json",
    ),
    ("repack,check,-,,-", "command check,-,,-"),
    (
        "repack,live,d,r,s,w,o,c,t",
        "command live run,d,r,s,w,o,c,t",
    ),
    (
        "repack,live,,-,5,--,-w,live,run,t",
        "command live run,,-,5,-w,live,run,t",
    ),
    (
        "repack,verify-live,d,r,s,w,t",
        "command live verify,d,r,s,w,t",
    ),
    ("repack,verify,d,r,s,t", "command verify,d,r,s,t"),
    ("repack,show,d,r,s,t,o,c", "command show,d,r,s,t,o,c"),
    (
        "repack,show-live,d,r,s,w,t,o,c",
        "command live show,d,r,s,w,t,o,c",
    ),
    (
        "repack,show,,-,5,--,-t,show,run",
        "command show,,-,5,-t,show,run",
    ),
    (
        "repack,resume,d,r,s,p,o,c,t",
        "command resume,d,r,s,p,o,c,t",
    ),
    ("repack,seek,d,r,s,c", "command seek,d,r,s,c"),
    ("repack,seek,,-,--,-s,seek", "command seek,,-,-s,seek"),
    ("repack,batch,d,-,batch", "command batch,d,-,batch"),
    (
        "repack,check,--,-d,--,--version",
        "command check,-d,--,--version",
    ),
    (
        "repack,make,18446744073709551615,4096,d,r,s",
        "command make,18446744073709551615,4096,d,r,s",
    ),
    ("repack,make,+0,01,--,-d,,make", "command make,0,1,-d,,make"),
    ("repack,--version", "repack 1.0.0\n"),
    ("other,-V", "repack 1.0.0\n"),
];

#[test]
fn each_name_stands_in_its_place(rt: HostRuntime) -> Result<(), Fail> {
    assert_eq!(rt; misread(rt.alloc(), ORDERS)?, None);
    Ok(())
}

const STEP_ORDERS: &[(&str, &str)] = &[
    (
        "repack,export,d,r,s,t,1,c",
        "command export,d,r,s,t,c,step 1",
    ),
    (
        "repack,export,d,r,s,t,+7,c",
        "command export,d,r,s,t,c,step 7",
    ),
    (
        "repack,export,d,r,s,t,007,c",
        "command export,d,r,s,t,c,step 7",
    ),
    (
        "repack,export,,-,5,6,4294967295,--,-c",
        "command export,,-,5,6,-c,step 4294967295",
    ),
    (
        "repack,import,d,r,s,t,1,l,o,n",
        "command import,d,r,s,t,l,o,n,step 1",
    ),
    (
        "repack,import,d,r,s,t,+7,l,o,n",
        "command import,d,r,s,t,l,o,n,step 7",
    ),
    (
        "repack,import,d,r,s,t,007,l,o,n",
        "command import,d,r,s,t,l,o,n,step 7",
    ),
    (
        "repack,import,,-,5,6,4294967295,--,-l,--,export",
        "command import,,-,5,6,-l,--,export,step 4294967295",
    ),
];

#[test]
fn a_step_stands_behind_the_transcript(rt: HostRuntime) -> Result<(), Fail> {
    assert_eq!(rt; misread(rt.alloc(), STEP_ORDERS)?, None);
    Ok(())
}
