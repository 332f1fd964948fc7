//! Changes to the files of a run, and calls of its folder and sink that fail.

use std::alloc::{AllocError as NoMemory, Global};

/// Bytes that are not UTF-8.
const NO_TEXT: &[u8] = b"\x00\xff\x9c,\x00\n\xfe\x07";

/// The one change of a scene.
#[derive(Clone, Copy)]
pub enum Change<'a> {
    Nothing,
    /// In the scenario's text, the second string replaces the first.
    Part(&'a str, &'a str),
    /// The input of this name has this text.
    Holds(&'a str, &'a str),
    /// The input of this name has bytes that are not UTF-8.
    Garbled(&'a str),
    /// The input of this name is missing.
    Missing(&'a str),
    /// All inputs are missing.
    Channelless,
    /// The folder's call with this number fails.
    Call(u64),
    /// The input of this name has this text, and the folder's call with this number fails.
    Stops(&'a str, &'a str, u64),
    /// The sink's write with this number fails.
    Write(u64),
    /// The folder's call with this number and the sink's first write fail.
    Mute(u64),
    /// Each output has this text before the run, and the folder's call with this number fails.
    Over(&'a str, u64),
}

impl<'a> Change<'a> {
    /// Returns the bytes of the input of this name, which has `text` without a change; `None` if the input is missing.
    pub fn held(self, name: &str, text: &'a str) -> Option<&'a [u8]> {
        match self {
            Change::Holds(at, other) if at == name => Some(other.as_bytes()),
            Change::Stops(at, other, _) if at == name => Some(other.as_bytes()),
            Change::Garbled(at) if at == name => Some(NO_TEXT),
            Change::Missing(at) if at == name => None,
            Change::Channelless => None,
            _ => Some(text.as_bytes()),
        }
    }

    /// Returns the number of the folder's call that fails, if any.
    pub fn failing_call(self) -> Option<u64> {
        match self {
            Change::Call(call)
            | Change::Stops(_, _, call)
            | Change::Mute(call)
            | Change::Over(_, call) => Some(call),
            _ => None,
        }
    }

    /// Returns the number of the sink's write that fails, if any.
    pub fn failing_write(self) -> Option<u64> {
        match self {
            Change::Write(write) => Some(write),
            Change::Mute(_) => Some(1),
            _ => None,
        }
    }
}

/// Returns the text with `part` replaced by `other`; without `part`, a text that no test expects.
pub fn replaced(alloc: Global, text: &str, part: &str, other: &str) -> Result<String, NoMemory> {
    match text.split_once(part) {
        Some((before, after)) => format!(in alloc; "{before}{other}{after}"),
        None => String::from_str(alloc, "{}"),
    }
}
