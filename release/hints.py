"""What the launcher says of a file that a line of the program names: the line of the file and what was expected there, why a file
can't be read, or where a text is no JSON.

Only regular files are read again: a pipe has nothing left, and opening one could wait.
"""
import os
import re
import stat

from streams import shown

# What a line of the file holds, by the argument that names it, as docs/FORMATS.md says.
STEPS = (
    "one of start empty, start fit K, fit R S K, same R S, none R S, log R S W L, dead R S W F A G B, outside R S L, undecided R S K, "
    "end N, or a line that belongs to the step before"
)
EXPECTED = {
    "DOMAINS": "DOMAIN,facility,channel,..",
    "ROWS": "KEY,a,b,s,t,.. with KEY one of CO, ADJ+1, ADJ-1, ADJ+2, ADJ-2",
    "OWNERS": "round,facility,stay or leave",
    "LIST": "SCENARIO,RESULT",
    "TRANSCRIPT": STEPS,
    "PREFIX": STEPS,
    "LRAT": "number literals 0 hints 0",
}
NUMBER = "a number is one or more ASCII digits, leading zeros allowed, at most 4,294,967,295"
CHANNEL = "channels are 2 to 51"
HEADER = "each line is a row, and there is no header line"
COMMAS = "fields are separated by commas"
# What holds for a cause that the form of a line doesn't explain, by the argument.
HOLDS = {
    ("DOMAINS", "unknown key"): HEADER,
    ("ROWS", "unknown key"): HEADER,
    ("DOMAINS", "short row"): COMMAS,
    ("ROWS", "short row"): COMMAS,
    ("OWNERS", "not three fields"): COMMAS,
    ("DOMAINS", "bad number"): NUMBER,
    ("ROWS", "bad number"): NUMBER,
    ("OWNERS", "bad number"): NUMBER,
    ("DOMAINS", "channel out of range"): CHANNEL,
    ("ROWS", "channel out of range"): CHANNEL,
    ("DOMAINS", "second domain row"): "a facility has one DOMAIN row, and this one has a row already",
    ("DOMAINS", "too many"): "there are at most 65,536 DOMAIN rows",
    ("ROWS", "too many"): "there are at most 4,000,000 distinct kept pairs",
    ("ROWS", "channels do not fit the key"): "b - a is 0 for CO, 1 for ADJ+1, -1 for ADJ-1, 2 for ADJ+2, -2 for ADJ-2",
    ("OWNERS", "round out of range"): "rounds go from 0 to the last one in which the price falls",
    ("OWNERS", "unknown station"): "the scenario has no such station",
    ("OWNERS", "repeated"): "an earlier record is of the same round and station",
    ("LRAT", "RAT step"): "a hint is the number of a clause or of an earlier line; LRAT's RAT steps, with a negative hint, are not taken",
}
PLACE = re.compile(rb"(.*): line (\d+): ([^:\n]*)\n", re.S)
UNREAD = re.compile(rb"cannot read (.*)\n", re.S)
NOT_JSON = re.compile(rb"(.*): not JSON\n", re.S)
NO_TRANSCRIPT = re.compile(rb"(.*): (version|truncated)\n", re.S)
MOST_SHOWN = 120
# Enough for as many characters of UTF-8 and one more.
MOST_BYTES = 4 * (MOST_SHOWN + 1)
CHUNK = 1 << 16
LONGEST_JSON = 64_000_000


def hint(text, given):
    """What is said, in bytes, where the program printed this text; empty where there is nothing to say. `given` has the arguments of
    the command, each with the name of its file."""
    found = PLACE.fullmatch(text)
    if found:
        return place(found[1], int(found[2]), found[3].decode("utf-8", "replace"), given)
    found = UNREAD.fullmatch(text)
    if found:
        return why_unread(found[1])
    found = NOT_JSON.fullmatch(text)
    if found:
        return json_fault(found[1])
    found = NO_TRANSCRIPT.fullmatch(text)
    return no_transcript(found[1], found[2], given) if found else b""


def no_transcript(name, cause, given):
    """What is expected of a transcript that isn't one from its first line to its last."""
    kinds = {kind for kind, own in given if own == name}
    if cause == b"version" and kinds & {"TRANSCRIPT", "PREFIX"}:
        return b"expected: transcript 1 or transcript 2 as the first line\n"
    if "TRANSCRIPT" not in kinds:
        return b""
    is_live = any(kind == "OWNERS" for kind, _ in given)
    return b"expected: end N as the last line" + (b"\n" if is_live else b"; the command resume continues an auction that broke off\n")


def place(name, number, cause, given):
    """The line of a file and what was expected there, once for each kind of file that has this name in the command."""
    kinds = dict.fromkeys(EXPECTED[kind] for kind, own in given if own == name and kind in EXPECTED)
    if not kinds:
        return b""
    line = line_of(name, number)
    said = [] if line is None else [f"{shown(name)}:{number}: {shown(line, MOST_SHOWN)}"]
    said += [f"expected: {expected}" for expected in kinds]
    said += dict.fromkeys(f"{cause}: {HOLDS[kind, cause]}" for kind, own in given if own == name and (kind, cause) in HOLDS)
    return "".join(f"{text}\n" for text in said).encode()


def line_of(name, number):
    """The first bytes of a line, by its number from 1, or None where the file can't be read again or has no such line. A line that is
    longer than can be shown is cut. The cost is linear in what stands before it, with no more than a chunk in memory."""
    try:
        if not stat.S_ISREG(os.stat(name).st_mode):
            return None
        with open(name, "rb", buffering=0) as file:
            begin = begin_of(file, number)
            if begin is None:
                return None
            file.seek(begin)
            return file.read(MOST_BYTES).partition(b"\n")[0]
    except OSError:
        return None


def begin_of(file, number):
    """Where a line of a file begins, or None where the file has fewer lines."""
    passed, missing = 0, number - 1
    for chunk in iter(lambda: file.read(CHUNK), b""):
        count = chunk.count(b"\n")
        if count >= missing:
            return passed + end_of(chunk, missing)
        passed, missing = passed + len(chunk), missing - count
    return None


def end_of(chunk, lines):
    """Where so many lines of a chunk end."""
    end = 0
    for _ in range(lines):
        end = chunk.index(b"\n", end) + 1
    return end


def why_unread(name):
    """Why a file can't be read, or nothing where it could be by now."""
    try:
        mode = os.stat(name).st_mode
        if stat.S_ISDIR(mode):
            return f"{shown(name)}: this is a folder\n".encode()
        if not os.access(name, os.R_OK, effective_ids=os.access in os.supports_effective_ids):
            return f"{shown(name)}: forbidden to read\n".encode()
        if stat.S_ISREG(mode):
            with open(name, "rb", buffering=0) as file:
                file.read(1)
    except FileNotFoundError:
        return b"-: no such file; standard input is /dev/stdin\n" if name == b"-" else f"{shown(name)}: no such file\n".encode()
    except PermissionError:
        return f"{shown(name)}: forbidden to read\n".encode()
    except OSError as error:
        return f"{shown(name)}: {error.strerror}\n".encode()
    return b""


def json_fault(name):
    """The line and the column of the first fault of a text that Python's `json` finds, or nothing where it finds none."""
    import json

    try:
        state = os.stat(name)
        if not stat.S_ISREG(state.st_mode) or state.st_size > LONGEST_JSON:
            return b""
        with open(name, "rb") as file:
            json.loads(file.read().decode(), parse_int=len, parse_float=len)
    except json.JSONDecodeError as error:
        return f"{shown(name)}: line {error.lineno}, column {error.colno}: {error.msg}\n".encode()
    except (OSError, ValueError, RecursionError):
        return b""
    return b""
