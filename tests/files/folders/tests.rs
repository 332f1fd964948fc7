//! Both folders and both sinks, each used through its trait.

use outside_io::diary::{CallEnd, CallKind};
use outside_io::folder::{Folder, LoadErr, NewFile, PIECE_SIZE, StoreErr, Unstored};
use outside_io::memory_folder::{MemoryFile, MemoryFolder};
use outside_io::memory_sink::MemorySink;
use outside_io::real::{RealFolder, RealSink};
use outside_io::sink::{Failed, Sink};
use std::alloc::{AllocError as NoMemory, Global};
use std::fs;
use std::io::Write;
use std::test::Fail;

// Loads two files, the second only if the first succeeds.
fn load_both<F: Folder>(
    folder: &mut F,
    first: &mut Vec<u8>,
    second: &mut Vec<u8>,
) -> Result<(), LoadErr> {
    folder.load("domains", 3, first)?;
    folder.load("rows", 9, second)
}

// Returns a folder of two files, in which these calls fail.
fn folder_of_two(alloc: Global, failing: &[u64]) -> Result<MemoryFolder, NoMemory> {
    let mut files = Vec::new(alloc);
    files.push(MemoryFile::new(alloc, "domains", b"abc")?)?;
    files.push(MemoryFile::new(alloc, "rows", b"")?)?;
    Ok(MemoryFolder::new(files, failing.to_vec(alloc)?))
}

fn is_held(folder: &MemoryFolder, name: &str, bytes: &[u8]) -> bool {
    match folder.bytes(name) {
        Some(held) => held == bytes,
        None => false,
    }
}

#[test]
fn files_are_loaded_in_turn(rt: HostRuntime) -> Result<(), Fail> {
    let mut folder = folder_of_two(rt.alloc(), &[])?;
    let mut first = Vec::new(rt.alloc());
    let mut second = Vec::from_slice(rt.alloc(), b"old")?;
    assert_eq!(rt; load_both(&mut folder, &mut first, &mut second), Ok(()));
    assert_eq!(rt; first.as_slice(), b"abc".as_slice());
    assert_eq!(rt; second.as_slice(), b"".as_slice());
    Ok(())
}

#[test]
fn a_load_that_fails_leaves_nothing(rt: HostRuntime) -> Result<(), Fail> {
    let mut folder = folder_of_two(rt.alloc(), &[])?;
    let mut into = Vec::from_slice(rt.alloc(), b"old")?;
    for (name, limit, why) in [
        ("domains", 2, LoadErr::TooLong),
        ("domain", 9, LoadErr::Failed),
        ("Domains", 9, LoadErr::Failed),
    ] {
        assert_eq!(rt; folder.load(name, limit, &mut into), Err(why), "{name}");
        assert!(rt; into.is_empty(), "{name}");
    }
    Ok(())
}

#[test]
fn a_store_keeps_the_other_files(rt: HostRuntime) -> Result<(), Fail> {
    let mut folder = folder_of_two(rt.alloc(), &[])?;
    assert_eq!(rt; folder.store("domains", b"four"), Ok(()));
    assert_eq!(rt; folder.store("answers", b"yes"), Ok(()));
    assert!(rt; is_held(&folder, "domains", b"four"));
    assert!(rt; is_held(&folder, "rows", b""));
    assert!(rt; is_held(&folder, "answers", b"yes"));
    assert!(rt; !is_held(&folder, "absent", b""));
    Ok(())
}

#[test]
fn a_diary_has_each_call_and_how_it_ended(rt: HostRuntime) -> Result<(), Fail> {
    let alloc = rt.alloc();
    let mut files = Vec::new(alloc);
    files.push(MemoryFile::new(alloc, "domains", b"abc")?)?;
    let mut folder = MemoryFolder::with_diary(files, [6].to_vec(alloc)?);
    let mut into = Vec::new(alloc);
    assert_eq!(rt; folder.load("domains", 3, &mut into), Ok(()));
    assert_eq!(rt; folder.load("absent", 3, &mut into), Err(LoadErr::Failed));
    assert_eq!(rt; folder.begin("domains", 2), Err(LoadErr::TooLong));
    assert_eq!(rt; folder.begin("domains", 3), Ok(()));
    // A piece that is returned has no entry.
    assert_eq!(rt; folder.piece(&mut into), Ok(()));
    assert_eq!(rt; folder.piece(&mut into), Err(LoadErr::Failed));
    assert_eq!(rt; folder.store("answers", b"yes"), Ok(()));
    const LATEST_FIRST: &[(CallKind, &str, CallEnd)] = &[
        (CallKind::Store, "answers", CallEnd::Done),
        (CallKind::Piece, "", CallEnd::Failed),
        (CallKind::Begin, "domains", CallEnd::Done),
        (CallKind::Begin, "domains", CallEnd::TooLong),
        (CallKind::Load, "absent", CallEnd::Failed),
        (CallKind::Load, "domains", CallEnd::Done),
    ];
    let Some(calls) = folder.calls() else {
        return Err(Fail::new("the diary is lost"));
    };
    assert_eq!(rt; calls.len(), LATEST_FIRST.len());
    for (call, &(kind, name, end)) in calls.iter().zip(LATEST_FIRST) {
        assert_eq!(rt; (call.kind, call.name.as_str(), call.end), (kind, name, end));
    }
    Ok(())
}

#[test]
fn a_new_folder_keeps_no_diary(rt: HostRuntime) -> Result<(), Fail> {
    let mut folder = folder_of_two(rt.alloc(), &[])?;
    assert_eq!(rt; folder.store("answers", b"yes"), Ok(()));
    assert!(rt; folder.calls().is_none());
    Ok(())
}

// Returns the answers of these calls on a folder of two files, in which the `failing` calls fail. Each call is a letter. `l` loads the
// first file and `s` stores it again. `b` begins the first file, `t` begins it with too low a limit, `e` begins the empty file and `a`
// begins a missing one. `p` reads a piece. An answer is the number of bytes, `W` for a full piece, or `r` for any other number. `-` means
// success without bytes, `F` failed, `T` too long, and `?` bytes left after an error.
fn answers(alloc: Global, failing: &[u64], calls: &str) -> Result<String, NoMemory> {
    let mut folder = folder_of_two(alloc, failing)?;
    let mut into = Vec::new(alloc);
    let mut told = String::new(alloc);
    for call in calls.bytes() {
        told.push(answer(&mut folder, call, &mut into))?;
    }
    Ok(told)
}

fn answer<F: Folder>(folder: &mut F, call: u8, into: &mut Vec<u8>) -> char {
    match call {
        b'l' => came(folder.load("domains", 3, into), into),
        b'p' => came(folder.piece(into), into),
        b'b' => done(folder.begin("domains", 3)),
        b't' => done(folder.begin("domains", 2)),
        b'e' => done(folder.begin("rows", 0)),
        b'a' => done(folder.begin("absent", 3)),
        _ => stored(folder.store("domains", b"four!")),
    }
}

fn came(asked: Result<(), LoadErr>, into: &[u8]) -> char {
    if asked.is_err() && !into.is_empty() {
        return '?';
    }
    if asked.is_err() {
        return done(asked);
    }
    match into.len() {
        0 => '0',
        3 => '3',
        PIECE_SIZE => 'W',
        _ => 'r',
    }
}

fn done(asked: Result<(), LoadErr>) -> char {
    match asked {
        Ok(()) => '-',
        Err(LoadErr::Failed) => 'F',
        Err(LoadErr::TooLong) => 'T',
        Err(LoadErr::NoMemory) => '?',
    }
}

fn stored(asked: Result<(), StoreErr>) -> char {
    match asked {
        Ok(()) => '-',
        Err(StoreErr::Failed) => 'F',
        Err(StoreErr::NoMemory) => '?',
    }
}

#[test]
fn all_calls_of_a_folder_are_counted_together(rt: HostRuntime) -> Result<(), Fail> {
    const ROWS: &[(&[u64], &str, &str)] = &[
        (&[], "lbppsl", "3-30-T"),
        (&[1], "lbpps", "F-30-"),
        (&[2], "lbpps", "3F00-"),
        (&[3], "lbpps", "3-F0-"),
        (&[4], "lbpps", "3-3F-"),
        (&[5], "lbpps", "3-30F"),
        // A failed store leaves the file unchanged.
        (&[4, 2], "lslsl", "3F3F3"),
        (&[2], "ll", "3F"),
        // No file is begun, the file is empty, or the begin fails.
        (&[], "pp", "00"),
        (&[1], "pp", "F0"),
        (&[], "ep", "-0"),
        (&[], "tp", "T0"),
        (&[], "ap", "F0"),
        (&[], "btp", "-T0"),
        (&[], "bap", "-F0"),
        // A file is begun twice, loaded while it is read, or stored after it is begun.
        (&[], "bpbp", "-3-3"),
        (&[], "ebpp", "--30"),
        (&[], "blpp", "-330"),
        (&[], "bspbap", "--3TF0"),
    ];
    for (failing, calls, want) in ROWS {
        assert_eq!(rt;
            answers(rt.alloc(), failing, calls)?.as_str(),
            *want,
            "{calls}"
        );
    }
    Ok(())
}

// Returns all bytes of a file, read in pieces.
fn whole<F: Folder>(
    alloc: Global,
    folder: &mut F,
    name: &str,
    limit: u64,
) -> Result<Vec<u8>, LoadErr> {
    folder.begin(name, limit)?;
    let mut bytes = Vec::new(alloc);
    let mut piece = Vec::new(alloc);
    for _ in 0..u64::MAX {
        folder.piece(&mut piece)?;
        if piece.is_empty() {
            return Ok(bytes);
        }
        bytes.extend_from_slice(&piece)?;
    }
    Err(LoadErr::TooLong)
}

// Checks whether a file comes in pieces of these sizes, and then ends.
fn comes_in<F: Folder>(
    alloc: Global,
    folder: &mut F,
    name: &str,
    sizes: &[usize],
) -> Result<bool, LoadErr> {
    let mut piece = Vec::new(alloc);
    folder.begin(name, 200_000)?;
    for size in sizes {
        folder.piece(&mut piece)?;
        if piece.len() != *size {
            return Ok(false);
        }
    }
    folder.piece(&mut piece)?;
    Ok(piece.is_empty())
}

// Returns this many bytes, with a period of 251 so that two pieces differ.
fn counted(alloc: Global, length: usize) -> Result<Vec<u8>, NoMemory> {
    let mut bytes = Vec::new(alloc);
    for i in 0..length {
        bytes.push((i % 251) as u8)?;
    }
    Ok(bytes)
}

// Checks whether a file of this length comes in pieces of these sizes, and completely.
fn comes_whole(alloc: Global, length: usize, sizes: &[usize]) -> Result<bool, NoMemory> {
    let bytes = counted(alloc, length)?;
    let mut files = Vec::new(alloc);
    files.push(MemoryFile::new(alloc, "counted", &bytes)?)?;
    let mut folder = MemoryFolder::new(files, Vec::new(alloc));
    let sized = comes_in(alloc, &mut folder, "counted", sizes) == Ok(true);
    Ok(sized && is_whole(alloc, &mut folder, "counted", &bytes))
}

// Checks whether all pieces of a file together are these bytes.
fn is_whole<F: Folder>(alloc: Global, folder: &mut F, name: &str, bytes: &[u8]) -> bool {
    match whole(alloc, folder, name, bytes.len() as u64) {
        Ok(all) => all.as_slice() == bytes,
        Err(_) => false,
    }
}

#[test]
fn a_file_comes_in_pieces_of_one_size(rt: HostRuntime) -> Result<(), Fail> {
    const ROWS: &[(usize, &[usize])] = &[
        (0, &[]),
        (1, &[1]),
        (2, &[2]),
        (45, &[45]),
        (65_535, &[65_535]),
        (65_536, &[65_536]),
        (65_537, &[65_536, 1]),
        (131_072, &[65_536, 65_536]),
        (131_073, &[65_536, 65_536, 1]),
    ];
    for (length, sizes) in ROWS {
        assert!(rt; comes_whole(rt.alloc(), *length, sizes)?, "{length}");
    }
    Ok(())
}

#[test]
fn a_sink_takes_what_it_has_room_for(rt: HostRuntime) -> Result<(), Fail> {
    let mut sink = MemorySink::new(rt.alloc(), 5, Vec::new(rt.alloc()))?;
    for (bytes, want, held) in [
        ("abc", Ok(()), "abc"),
        ("defg", Err(Failed), "abcde"),
        ("", Ok(()), "abcde"),
        ("h", Err(Failed), "abcde"),
    ] {
        assert_eq!(rt; sink.write(bytes.as_bytes()), want, "{bytes}");
        assert_eq!(rt; sink.bytes(), held.as_bytes(), "{bytes}");
    }
    Ok(())
}

#[test]
fn the_second_write_fails(rt: HostRuntime) -> Result<(), Fail> {
    let mut sink = MemorySink::new(rt.alloc(), 9, vec![in rt.alloc(); 2]?)?;
    for (bytes, want, held) in [
        ("abc", Ok(()), "abc"),
        ("", Ok(()), "abc"),
        ("def", Err(Failed), "abc"),
        ("ghi", Ok(()), "abcghi"),
    ] {
        assert_eq!(rt; sink.write(bytes.as_bytes()), want, "{bytes}");
        assert_eq!(rt; sink.bytes(), held.as_bytes(), "{bytes}");
    }
    Ok(())
}

#[test]
fn the_system_gives_back_what_is_stored(rt: HostRuntime) -> Result<(), Fail> {
    // More bytes than one piece holds.
    let bytes = counted(rt.alloc(), 70_000)?;
    let mut into = Vec::new(rt.alloc());
    let mut folder = RealFolder::new(&rt, rt.alloc());
    assert_eq!(rt; folder.store("stored", &bytes), Ok(()));
    for (name, limit, want) in [
        ("stored", 70_000, Ok(())),
        ("stored", 69_999, Err(LoadErr::TooLong)),
        ("absent", 9, Err(LoadErr::Failed)),
        (".", 9, Err(LoadErr::Failed)),
    ] {
        assert_eq!(rt; folder.load(name, limit, &mut into), want, "{name}");
        let held = if want.is_ok() {
            bytes.as_slice()
        } else {
            b"".as_slice()
        };
        assert!(rt; into.as_slice() == held, "{name}");
    }
    assert_eq!(rt; folder.store(".", b"a"), Err(StoreErr::Failed));
    fs::remove_file(&rt, "stored")?;
    Ok(())
}

// Returns a file to store.
fn new<'a>(name: &'a str, bytes: &'a [u8]) -> NewFile<'a> {
    NewFile { name, bytes }
}

#[test]
fn several_files_are_stored_up_to_the_first_that_fails(rt: HostRuntime) -> Result<(), Fail> {
    let files = [
        new("domains", b"four"),
        new("answers", b"yes"),
        new("rows", b"1"),
    ];
    let mut folder = folder_of_two(rt.alloc(), &[])?;
    assert_eq!(rt; folder.store_all(&files), Ok(()));
    assert!(rt; is_held(&folder, "domains", b"four"));
    assert!(rt; is_held(&folder, "answers", b"yes"));
    assert!(rt; is_held(&folder, "rows", b"1"));
    let mut folder = folder_of_two(rt.alloc(), &[2])?;
    let unstored = Unstored::new(1, StoreErr::Failed);
    assert_eq!(rt; folder.store_all(&files), Err(unstored));
    assert!(rt; is_held(&folder, "domains", b"four"));
    assert!(rt; folder.bytes("answers").is_none());
    assert!(rt; is_held(&folder, "rows", b""));
    assert_eq!(rt; folder.store_all(&[]), Ok(()));
    Ok(())
}

#[test]
fn the_system_stores_all_files_or_none(rt: HostRuntime) -> Result<(), Fail> {
    let mut folder = RealFolder::new(&rt, rt.alloc());
    let mut into = Vec::new(rt.alloc());
    assert_eq!(rt; folder.store("first", b"old"), Ok(()));
    let unstored = Unstored::new(1, StoreErr::Failed);
    assert_eq!(rt; folder.store_all(&[new("first", b"new"), new(".", b"a")]), Err(unstored));
    assert_eq!(rt; folder.load("first", 9, &mut into), Ok(()));
    assert_eq!(rt; into.as_slice(), b"old".as_slice());
    assert_eq!(rt; folder.store_all(&[new("first", b"new"), new("second", b"")]), Ok(()));
    assert_eq!(rt; folder.load("first", 9, &mut into), Ok(()));
    assert_eq!(rt; into.as_slice(), b"new".as_slice());
    assert_eq!(rt; folder.load("second", 9, &mut into), Ok(()));
    assert_eq!(rt; into.as_slice(), b"".as_slice());
    fs::remove_file(&rt, "first")?;
    fs::remove_file(&rt, "second")?;
    Ok(())
}

// Begins a file and reads three pieces. Returns the answers in the letters of `answers`.
fn begun_and_read<F: Folder>(
    alloc: Global,
    folder: &mut F,
    name: &str,
    limit: u64,
) -> Result<String, NoMemory> {
    let mut into = Vec::new(alloc);
    let mut told = String::new(alloc);
    told.push(done(folder.begin(name, limit)))?;
    for _ in 0..3 {
        told.push(answer(folder, b'p', &mut into))?;
    }
    Ok(told)
}

#[test]
fn the_system_gives_a_file_in_pieces(rt: HostRuntime) -> Result<(), Fail> {
    let bytes = counted(rt.alloc(), 70_000)?;
    let mut folder = RealFolder::new(&rt, rt.alloc());
    assert_eq!(rt; folder.store("pieces", &bytes), Ok(()));
    assert!(rt; is_whole(rt.alloc(), &mut folder, "pieces", &bytes));
    assert_eq!(rt;
        comes_in(rt.alloc(), &mut folder, "pieces", &[65_536, 4_464]),
        Ok(true)
    );
    const ROWS: &[(&str, u64, &str)] = &[
        ("pieces", 70_000, "-Wr0"),
        ("pieces", 69_999, "T000"),
        ("pieces", 65_535, "T000"),
        ("pieces", 0, "T000"),
        ("absent", 9, "F000"),
        (".", 9, "-F00"),
    ];
    for (name, limit, want) in ROWS {
        let told = begun_and_read(rt.alloc(), &mut folder, name, *limit)?;
        assert_eq!(rt; told.as_str(), *want, "{name} {limit}");
    }
    fs::remove_file(&rt, "pieces")?;
    Ok(())
}

// A file that grows past its limit after it was begun is too long at the piece that passes the limit.
#[test]
fn the_system_gives_a_file_that_grows(rt: HostRuntime) -> Result<(), Fail> {
    let bytes = counted(rt.alloc(), 70_000)?;
    let mut folder = RealFolder::new(&rt, rt.alloc());
    let mut into = Vec::new(rt.alloc());
    let mut told = String::new(rt.alloc());
    assert_eq!(rt; folder.store("grows", &bytes), Ok(()));
    assert_eq!(rt; folder.begin("grows", 70_000), Ok(()));
    let mut grown = fs::OpenOptions::new().append(true).open(&rt, "grows")?;
    assert_eq!(rt; grown.write(b"x")?, 1);
    for _ in 0..3 {
        told.push(answer(&mut folder, b'p', &mut into))?;
    }
    assert_eq!(rt; told.as_str(), "WT0");
    fs::remove_file(&rt, "grows")?;
    Ok(())
}

#[test]
fn the_system_takes_a_line(rt: HostRuntime) {
    assert_eq!(rt; RealSink::new(&rt).write(b"written\n"), Ok(()));
}
